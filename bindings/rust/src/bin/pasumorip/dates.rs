//! Times as people read them.

const DAY: u64 = 86_400;

/// The date and time, in UTC, that lies this many seconds after the beginning of 1970.
pub fn utc(seconds: u64) -> String {
    let (mut days, second) = (seconds / DAY, seconds % DAY);
    let mut year = 1970;
    while days >= days_of(year) {
        days -= days_of(year);
        year += 1;
    }
    let mut month = 1;
    for length in months(year) {
        if days < length {
            break;
        }
        days -= length;
        month += 1;
    }
    let (hour, minute, second) = (second / 3600, second / 60 % 60, second % 60);
    format!("{year}-{month:02}-{:02} {hour:02}:{minute:02}:{second:02} UTC", days + 1)
}

fn is_leap(year: u64) -> bool {
    matches!((year % 4, year % 100, year % 400), (0, 1.., _) | (_, _, 0))
}

fn days_of(year: u64) -> u64 {
    months(year).iter().sum()
}

fn months(year: u64) -> [u64; 12] {
    [31, if is_leap(year) { 29 } else { 28 }, 31, 30, 31, 30, 31, 31, 30, 31, 30, 31]
}

#[cfg(test)]
mod tests {
    use super::*;

    #[test]
    fn dates_on_each_edge() {
        let told = |seconds| utc(seconds).replace(" UTC", "");
        assert_eq!(told(0), "1970-01-01 00:00:00");
        assert_eq!(told(951_782_399), "2000-02-28 23:59:59");
        assert_eq!(told(951_782_400), "2000-02-29 00:00:00");
        assert_eq!(told(1_763_107_200), "2025-11-14 08:00:00");
        assert_eq!(told(4_107_542_399), "2100-02-28 23:59:59");
        assert_eq!(told(4_107_542_400), "2100-03-01 00:00:00");
        assert_eq!(told(pasumorip::limits::LAST_TIME), "2514-05-30 01:53:03");
    }
}
