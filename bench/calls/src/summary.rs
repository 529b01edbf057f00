//! What was measured of many histories, in one line.

/// One history: its verdict, the attempts, and the nanoseconds of each side.
#[derive(Clone, Copy)]
pub struct Measured {
    pub has_order: bool,
    pub attempts: f64,
    pub port: f64,
    pub rust: f64,
}

/// Sums over the histories, and the median of how many times as fast the port is on each.
pub struct Summary {
    count: usize,
    orders: usize,
    attempts: f64,
    port: f64,
    rust: f64,
    median: f64,
}

impl Summary {
    pub fn of(histories: Vec<Measured>) -> Self {
        let sum = |part: fn(&Measured) -> f64| histories.iter().map(part).sum();
        let mut ratios: Vec<f64> = histories.iter().map(|one| one.rust / one.port).collect();
        ratios.sort_by(f64::total_cmp);
        Summary {
            count: histories.len(),
            orders: histories.iter().filter(|one| one.has_order).count(),
            attempts: sum(|one| one.attempts),
            port: sum(|one| one.port),
            rust: sum(|one| one.rust),
            median: ratios[ratios.len() / 2],
        }
    }

    /// The times of a history.
    pub fn means(&self) -> String {
        format!(
            "{} judged, {:.0} attempts each, port {:.0} ns, Rust {:.0} ns, {:.1} times as fast",
            self.count,
            self.mean(self.attempts),
            self.mean(self.port),
            self.mean(self.rust),
            self.rust / self.port,
        )
    }

    /// How the two sides compare, in the time of a history.
    pub fn compared(&self) -> String {
        format!(
            "port {:.0} ns, Rust {:.0} ns, {:.2} times as fast (median {:.2})",
            self.mean(self.port),
            self.mean(self.rust),
            self.rust / self.port,
            self.median,
        )
    }

    /// The same, where this was judging, and the port's time of an attempt.
    pub fn judged(&self) -> String {
        let attempt = self.port / self.attempts;
        format!("{}; port {attempt:.1} ns an attempt", self.compared())
    }

    /// The times of an event, where a history has so many.
    pub fn of_an_event(&self, events: usize) -> String {
        let [port, rust] = [self.port, self.rust].map(|sum| self.mean(sum) / events as f64);
        format!("port {port:.0} ns, Rust {rust:.0} ns an event")
    }

    /// What the histories come to.
    pub fn verdicts(&self) -> String {
        let attempts = self.mean(self.attempts);
        format!("{} have an order, {attempts:.0} attempts each", self.orders)
    }

    fn mean(&self, sum: f64) -> f64 {
        sum / self.count as f64
    }
}
