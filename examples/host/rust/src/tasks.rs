//! The simulated threads.

use mtr::Reason;

/// A thread works for a burst of ticks, ends it for the reason given and, if it
/// blocked, is woken after a pause. One pause of eight is longer by the factor
/// `late`. Without a burst it works on for ever.
pub struct Task {
    pub claim: Claim,
    pub burst: Option<(u32, u32)>,
    pub reason: Reason,
    /// Blocked from the end of a sample to the next.
    pub measures: bool,
    pub pause: (u32, u32),
    pub late: u32,
}

/// What a thread is admitted with.
pub enum Claim {
    /// Thousandths of the core, in group 0.
    Reserved(u16),
    /// A priority, in the lab's group.
    Imported(u8),
    /// A weight among the best-effort threads.
    BestEffort(u16),
}

pub const READOUT: u8 = 0;
pub const VIEWER: u8 = 2;
pub const EXPORTER: u8 = 3;
pub const ARCHIVE: u8 = 5;
pub const PRINTER: u8 = 6;

/// A task that never ends its burst.
const STEADY: Task = Task {
    claim: Claim::Reserved(0),
    burst: None,
    reason: Reason::Tick,
    measures: false,
    pause: (0, 0),
    late: 1,
};

pub const TASKS: [Task; 8] = [
    // Readout.
    Task {
        claim: Claim::Reserved(500),
        measures: true,
        ..STEADY
    },
    // Pumps.
    Task {
        claim: Claim::Reserved(100),
        burst: Some((600, 900)),
        reason: Reason::Block,
        pause: (10_000, 10_000),
        ..STEADY
    },
    // The viewer.
    Task {
        claim: Claim::Imported(3),
        burst: Some((3_000, 8_000)),
        reason: Reason::Yield,
        measures: true,
        ..STEADY
    },
    // The exporter.
    Task {
        claim: Claim::Imported(8),
        burst: Some((1_500, 4_000)),
        reason: Reason::Block,
        pause: (200, 3_000),
        late: 10,
        ..STEADY
    },
    // The self-test at power-up.
    Task {
        claim: Claim::Reserved(50),
        burst: Some((5_000, 5_000)),
        reason: Reason::Exit,
        ..STEADY
    },
    // The archive.
    Task {
        claim: Claim::Reserved(200),
        measures: true,
        ..STEADY
    },
    // The printer prints a page of the report, then waits for the next one.
    Task {
        claim: Claim::BestEffort(1),
        burst: Some((12_000, 24_000)),
        reason: Reason::Block,
        pause: (4_000, 8_000),
        ..STEADY
    },
    // The packer packs what there is of the log, then waits for more.
    Task {
        claim: Claim::BestEffort(3),
        burst: Some((30_000, 60_000)),
        reason: Reason::Block,
        pause: (1_000, 4_000),
        ..STEADY
    },
];

impl Task {
    /// The weight of a best-effort thread.
    pub fn weight(&self) -> Option<u16> {
        match self.claim {
            Claim::BestEffort(weight) => Some(weight),
            Claim::Reserved(_) | Claim::Imported(_) => None,
        }
    }
}

/// What a task reserves by itself: 0 of the lab's and of best-effort ones.
pub fn reservation_of(thread: u8) -> u16 {
    match TASKS[thread as usize].claim {
        Claim::Reserved(reservation) => reservation,
        Claim::Imported(_) | Claim::BestEffort(_) => 0,
    }
}
