//! Opening hours from document 02's ticket 7 alone: the row, `None` if closed, or the refusal.

/// The weekdays from 1 January 2000 on, Monday is 0.
const WEEK: [u64; 7] = [5, 6, 0, 1, 2, 3, 4];

/// The minutes and the row of a window, or of an exception that is not closed.
fn good(open: &[u64]) -> bool {
    open[0] < open[1] && open[1] <= 24 * 60 && (1..800).contains(&open[2])
}

pub fn open_at(windows: &[u64], exceptions: &[u64], day: u64, minute: u64) -> Result<Option<u64>, u64> {
    let (mut weekly, mut special) = (windows.chunks_exact(4), exceptions.chunks_exact(5));
    let kept = weekly.all(|w| w[0] < 7 && good(&w[1..]))
        && special.all(|e| match e[4] {
            0 => good(&e[1..]),
            1 => e[1..4] == [0; 3],
            _ => false,
        });
    if !kept || windows.len() % 4 != 0 || exceptions.len() % 5 != 0 || minute >= 24 * 60 {
        return Err(29);
    }
    let mut counting: Vec<&[u64]> = exceptions.chunks(5).filter(|e| e[0] == day).collect();
    if counting.is_empty() {
        counting = windows.chunks(4).filter(|w| w[0] == WEEK[(day % 7) as usize]).collect();
    }
    Ok(counting.iter().find(|e| (e[1]..e[2]).contains(&minute)).map(|e| e[3]))
}
