//! The whole history of one node: every server job and every job it ever had.
//!
//! Nothing is forgotten. `complete` and `finished` say only where a search for
//! what is still open may start.

/// A server job. Its release and deadline follow from its number (rule 1).
#[derive(Clone, Debug)]
pub struct ServerJob {
    /// Ticks of budget used.
    pub used: u32,
    /// The number of the job linked to it, fixed at its release (rule 3).
    pub linked: Option<u32>,
}

/// A job of the node.
#[derive(Clone, Debug)]
pub struct Job {
    pub needs: u32,
    pub gained: u32,
    pub released: Option<u32>,
    pub finished: Option<u32>,
}

/// The history of one node and its server.
#[derive(Clone, Debug)]
pub struct NodeHistory {
    budget: u32,
    /// Server job number j stands at j - 1.
    server_jobs: Vec<ServerJob>,
    /// Job number j stands at j - 1; one for each invocation released.
    jobs: Vec<Job>,
    /// Jobs 1 to `linked` are linked: linking goes in number order (rule 3).
    linked: u32,
    /// Every server job up to this number is complete.
    complete: u32,
    /// Every job up to this number is finished.
    finished: u32,
}

impl NodeHistory {
    pub fn new(budget: u32) -> NodeHistory {
        NodeHistory { budget, server_jobs: Vec::new(), jobs: Vec::new(), linked: 0, complete: 0, finished: 0 }
    }

    pub fn server_job(&self, number: u32) -> &ServerJob {
        &self.server_jobs[number as usize - 1]
    }

    pub fn job(&self, number: u32) -> &Job {
        &self.jobs[number as usize - 1]
    }

    /// Every job, in number order.
    pub fn jobs(&self) -> &[Job] {
        &self.jobs
    }

    /// How many jobs are linked.
    pub fn linked(&self) -> u32 {
        self.linked
    }

    /// How many jobs are finished.
    pub fn finished_count(&self) -> u32 {
        let open = &self.jobs[self.finished as usize..];
        self.finished + open.iter().filter(|job| job.finished.is_some()).count() as u32
    }

    /// Adds the job of the invocation released now.
    pub fn add_job(&mut self, needs: u32, released: Option<u32>) {
        self.jobs.push(Job { needs, gained: 0, released, finished: None });
    }

    /// Rule 3: adds the server job released at `instant`, and links the next
    /// unlinked job to it if that job's release is at or before the instant.
    pub fn add_server_job(&mut self, instant: u32) {
        let next = self.linked + 1;
        let release = self.jobs.get(next as usize - 1).and_then(|job| job.released);
        let linked = release.filter(|&release| release <= instant).map(|_| next);
        if linked.is_some() {
            self.linked = next;
        }
        self.server_jobs.push(ServerJob { used: 0, linked });
    }

    /// Records that a job was released at `instant`.
    pub fn release_job(&mut self, number: u32, instant: u32) {
        self.jobs[number as usize - 1].released = Some(instant);
    }

    /// Records that a job finished at `instant`.
    pub fn finish_job(&mut self, number: u32, instant: u32) {
        self.jobs[number as usize - 1].finished = Some(instant);
        while self.jobs.get(self.finished as usize).is_some_and(|job| job.finished.is_some()) {
            self.finished += 1;
        }
    }

    /// Rule 6: one tick for the server job and for its linked job, if that
    /// still needs it.
    pub fn run(&mut self, number: u32) {
        let server_job = &mut self.server_jobs[number as usize - 1];
        server_job.used += 1;
        if let Some(linked) = server_job.linked {
            let job = &mut self.jobs[linked as usize - 1];
            if job.gained < job.needs {
                job.gained += 1;
            }
        }
        while self.is_complete(self.complete + 1) {
            self.complete += 1;
        }
    }

    /// Its budget is used up. False for one not yet released.
    fn is_complete(&self, number: u32) -> bool {
        self.server_jobs.get(number as usize - 1).is_some_and(|job| job.used == self.budget)
    }

    /// Rule 4: the numbers of the pending server jobs, in order.
    pub fn pending(&self) -> impl Iterator<Item = u32> + '_ {
        (self.complete + 1..=self.server_jobs.len() as u32).filter(|&number| !self.is_complete(number))
    }

    /// Rule 4: the server job `level` places before it is complete or does
    /// not exist.
    pub fn level_allows(&self, number: u32, level: u32) -> bool {
        number <= level || self.is_complete(number - level)
    }
}
