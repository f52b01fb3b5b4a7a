//! The text of a report and of a row.

use crate::schedule::Run;

/// `answer=0`, `round=`, `ticks=`, then one `response=` per graph.
pub fn report(round: u32, ticks: u32, responses: &[u32]) -> Vec<u8> {
    let mut text = format!("answer=0\nround={round}\nticks={ticks}\n");
    for response in responses {
        text += &format!("response={response}\n");
    }
    text.into_bytes()
}

/// One line per running server job; an idle tick gives no line.
pub fn row(running: &[Run]) -> Vec<u8> {
    let mut text = String::new();
    for run in running {
        let Run { graph, node, server_job, invocation } = run;
        text += &format!("run={graph},{node},{server_job},{invocation}\n");
    }
    text.into_bytes()
}
