//! Small random instances, and all their schedules.
use reedgrit::Range;

/// Numbers from 0 to `bound` − 1, the same in each run.
pub struct Numbers(pub u64);

impl Numbers {
    pub fn below(&mut self, bound: i32) -> i32 {
        self.0 = self.0.wrapping_mul(6364136223846793005).wrapping_add(1442695040888963407);
        ((self.0 >> 33) % bound as u64) as i32
    }

    /// Tasks, and ranges for them without bars.
    pub fn instance(&mut self) -> (Vec<i32>, Vec<Range>) {
        let tasks = 1 + self.below(5);
        let durations: Vec<i32> = (0..tasks).map(|_| 1 + self.below(4)).collect();
        let ranges = (0..tasks)
            .map(|_| {
                let earliest = self.below(13) - 6;
                Range::new(earliest, earliest + self.below(9))
            })
            .collect();
        (durations, ranges)
    }
}

/// All schedules of the ranges, at permitted starts only.
pub fn schedules(durations: &[i32], ranges: &[Range]) -> Vec<Vec<i32>> {
    let mut found = vec![Vec::new()];
    for (task, range) in ranges.iter().enumerate() {
        let mut longer = Vec::new();
        for starts in &found {
            for start in (range.earliest..=range.latest).filter(|start| range.permits(*start)) {
                let apart = |k: usize| starts[k] + durations[k] <= start || start + durations[task] <= starts[k];
                if (0..task).all(apart) {
                    longer.push([&starts[..], &[start]].concat());
                }
            }
        }
        found = longer;
    }
    found
}
