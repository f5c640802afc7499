//! How much of the machine's memory this process holds in a night, as Linux tells it: once its first packets have come, and the most of it after.

/// By how many KiB it may be more than at first: what a stack or an emulator takes late. A packet that took as little as one octet would take more in a
/// night of a million.
const MORE: u64 = 512;

/// It is looked at so often in a night.
const LOOKS: u64 = 100;

#[derive(Clone, Copy)]
pub struct Resident {
    first: Option<u64>,
    most: u64,
}

/// VmRSS of this process, in KiB.
fn resident() -> u64 {
    let status = std::fs::read_to_string("/proc/self/status").expect("Linux tells it");
    let line = status.lines().find_map(|line| line.strip_prefix("VmRSS:")).expect("Linux tells it");
    line.trim().split(' ').next().and_then(|kib| kib.parse().ok()).expect("a number of KiB")
}

impl Resident {
    pub fn new() -> Resident {
        Resident { first: None, most: 0 }
    }

    /// After the n-th packet of so many, if it is time: first when a twentieth of them has come.
    pub fn look(&mut self, n: u64, all: u64) {
        if n >= all / 20 && (n % (all / LOOKS).max(1) == 0 || n + 1 == all) {
            let now = resident();
            self.first.get_or_insert(now);
            self.most = self.most.max(now);
        }
    }

    pub fn stays(self) -> bool {
        self.most <= self.first.unwrap_or(0) + MORE
    }

    pub fn told(self) -> String {
        format!("the process held {} KiB of memory, and later at most {}", self.first.unwrap_or(0), self.most)
    }
}
