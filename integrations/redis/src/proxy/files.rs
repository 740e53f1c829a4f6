//! How many files the system lets a proxy open: each connection is one.

use crate::log;
use std::fs;

/// Says so if the system lets this program open fewer files than it may need.
pub fn warn(needed: usize) {
    let limits = fs::read_to_string("/proc/self/limits").unwrap_or_default();
    if let Some(most) = most(&limits).filter(|&most| most < needed) {
        log::warn(format!(
            "it may need {needed} open files, and the system allows {most}: raise that (ulimit -n, \
             LimitNOFILE), or lower --clients"
        ));
    }
}

/// How many files may be open; none if there is no limit.
fn most(limits: &str) -> Option<usize> {
    let line = limits.lines().find_map(|line| line.strip_prefix("Max open files"))?;
    line.split_whitespace().next()?.parse().ok()
}

#[cfg(test)]
mod tests {
    use super::*;

    #[test]
    fn the_limit_is_read() {
        let line =
            |soft| format!("Max processes  9 9 processes\nMax open files            {soft}   4096   files\n");
        assert_eq!(most(&line("1024")), Some(1024));
        assert_eq!(most(&line("unlimited")), None);
        assert_eq!(most(""), None);
    }
}
