//! Cuts in a text that is laid out like a table but is none: a graph's lines
//! or a node's three lines go, and the count above them is lowered.

/// The lines of the text, each with its LF.
fn lines_of(text: &[u8]) -> Vec<&[u8]> {
    text.split_inclusive(|&byte| byte == b'\n').collect()
}

/// Smaller texts: without each graph, then without each node.
pub fn cuts(text: &[u8]) -> Vec<Vec<u8>> {
    let lines = lines_of(text);
    let starting =
        |key: &[u8]| -> Vec<usize> { (0..lines.len()).filter(|&at| lines[at].starts_with(key)).collect() };
    let graphs = starting(b"period=");
    let mut cuts = Vec::new();
    for (index, &start) in graphs.iter().enumerate() {
        let end = graphs.get(index + 1).copied().unwrap_or(lines.len());
        cuts.extend(cut(&lines, start..end, b"graphs="));
    }
    for start in starting(b"budget=") {
        cuts.extend(cut(&lines, start..(start + 3).min(lines.len()), b"nodes="));
    }
    cuts
}

/// The text without some lines, and with one less on the nearest line above
/// that has the key of their count.
fn cut(lines: &[&[u8]], gone: std::ops::Range<usize>, key: &[u8]) -> Option<Vec<u8>> {
    let counter = lines[..gone.start].iter().rposition(|line| line.starts_with(key))?;
    let digits = lines[counter].strip_prefix(key)?.strip_suffix(b"\n")?;
    let count: u32 = std::str::from_utf8(digits).ok()?.parse().ok()?;
    let lowered = [key, count.checked_sub(1)?.to_string().as_bytes(), b"\n"].concat();
    let mut kept = lines.to_vec();
    kept[counter] = &lowered;
    kept.drain(gone);
    Some(kept.concat())
}

#[cfg(test)]
mod tests {
    use super::*;

    #[test]
    fn graphs_and_nodes_go_with_their_counts() {
        let text = b"graphs=2\nperiod=4\nnodes=2\nbudget=1\nlevel=1\nafter=9\nbudget=2\nlevel=1\nafter=1\nperiod=5\n";
        let cuts: Vec<String> =
            cuts(text).iter().map(|cut| String::from_utf8_lossy(cut).into_owned()).collect();
        assert_eq!(
            cuts,
            [
                "graphs=1\nperiod=5\n",
                "graphs=1\nperiod=4\nnodes=2\nbudget=1\nlevel=1\nafter=9\nbudget=2\nlevel=1\nafter=1\n",
                "graphs=2\nperiod=4\nnodes=1\nbudget=2\nlevel=1\nafter=1\nperiod=5\n",
                "graphs=2\nperiod=4\nnodes=1\nbudget=1\nlevel=1\nafter=9\nperiod=5\n",
            ]
        );
    }
}
