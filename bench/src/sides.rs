//! The three that are compared, each with the same work: so many lives of a task on the last cell, beside so many tasks that
//! are alive on the other cells. A life is: create, start, update the cell by one, finish.

use crate::engine::{Answer, Engine};
use crate::flat::Flat;
use crate::stores::Count;
use crate::tasks::{Access, Call};
use std::time::{Duration, Instant};

/// The tasks that one engine can have.
pub const MOST_TASKS: u16 = 64;

/// What a life finds: the cells of the store, and the tasks that are not finished, task 0 among them and its own not.
#[derive(Clone, Copy)]
pub struct Setting {
    pub cells: u16,
    pub alive: u16,
}

/// The proved engine, through its static library.
pub mod proved {
    use super::*;

    extern "C" {
        /// Makes an engine, with its tasks that are alive, and carries out the lives on it; this on so many engines, one
        /// after the other. Answers how many lives there were, 0 for a setting that does not fit or for want of memory.
        fn palmcroquet_lives(cells: u16, alive: u16, lives: u16, engines: u32) -> u64;
    }

    /// The time of all, the making of the engines included.
    pub fn whole(setting: Setting, lives: u16, engines: u32) -> Duration {
        let start = Instant::now();
        // SAFETY: the library is proved for all arguments, and asks of its caller no more than the C library's malloc and
        // free.
        let lived = unsafe { palmcroquet_lives(setting.cells, setting.alive, lives, engines) };
        let time = start.elapsed();
        assert_eq!(lived, u64::from(lives) * u64::from(engines), "the proved engine refused a life");
        time
    }
}

/// The second implementation.
pub mod reference {
    use super::*;

    const INOUT: u64 = 3;

    struct Job {
        engine: Engine<Flat<Count>>,
        last: usize,
    }

    impl Job {
        fn new(setting: Setting) -> Job {
            let last = usize::from(setting.cells) - 1;
            let mut job = Job { engine: Engine::new(Flat::new(setting.cells)), last };
            for k in 1..usize::from(setting.alive) {
                job.create(k % last);
            }
            job
        }

        fn create(&mut self, cell: usize) -> usize {
            let accesses = vec![Access { lo: cell, hi: cell + 1, code: INOUT }];
            match self.engine.perform::<Count>(&Call::Create { parent: 0, wait: false, accesses }) {
                Answer::Task(task) => task,
                answer => panic!("the reference refused a create: {answer:?}"),
            }
        }

        fn accept(&mut self, call: &Call<Count>) {
            let answer = self.engine.perform(call);
            assert_eq!(answer, Answer::Done, "the reference refused {call:?}");
        }

        fn live(&mut self) {
            let cell = self.last;
            let task = self.create(cell);
            self.accept(&Call::Start { task });
            self.accept(&Call::Update { task, cell, amount: Count(1) });
            self.accept(&Call::Finish { task });
        }

        fn value(&mut self) -> Answer<Count> {
            self.engine.perform(&Call::Look { cell: self.last })
        }
    }

    /// The time of the lives alone, on engines that were made before.
    pub fn lives(setting: Setting, lives: u16, engines: u32) -> Duration {
        let mut jobs: Vec<Job> = (0..engines).map(|_| Job::new(setting)).collect();
        let start = Instant::now();
        for job in &mut jobs {
            for _ in 0..lives {
                job.live();
            }
        }
        let time = start.elapsed();
        for job in &mut jobs {
            assert_eq!(job.value(), Answer::Value(Count(u64::from(lives))));
        }
        time
    }
}

/// Dependent tasks of OpenMP, by libgomp on one thread.
pub mod openmp {
    use super::*;

    #[repr(C)]
    struct Lives {
        nanoseconds: u64,
        begun_early: u64,
        others_run: u64,
    }

    extern "C" {
        fn openmp_lives(cells: *mut u64, count: u32, alive: u32, lives: u64) -> Lives;
    }

    /// The time of the lives alone, beside tasks that were created before.
    pub fn lives(setting: Setting, lives: u64) -> Duration {
        let mut cells = vec![0; usize::from(setting.cells)];
        let (count, alive) = (u32::from(setting.cells), u32::from(setting.alive));
        // SAFETY: the pointer is to `count` cells, of which there are at least two, and nothing else uses them meanwhile.
        let run = unsafe { openmp_lives(cells.as_mut_ptr(), count, alive, lives) };
        // One life was carried out before the clock started, and in the end the other tasks were.
        assert_eq!(cells.last(), Some(&(lives + 1)));
        assert_eq!(cells.iter().sum::<u64>(), lives + u64::from(alive));
        assert_eq!(run.others_run, 0, "another task ran while the lives were timed");
        assert_eq!(run.begun_early, 0, "a task ran before it was waited for");
        Duration::from_nanos(run.nanoseconds)
    }
}
