//! A table as values, and its text.

/// A node: its budget, its level, and the numbers of its predecessors.
#[derive(Clone, Debug, PartialEq, Eq)]
pub struct Node {
    pub budget: u32,
    pub level: u32,
    pub after: Vec<u32>,
}

/// A periodic graph. Node number n stands at `nodes[n - 1]`.
#[derive(Clone, Debug, PartialEq, Eq)]
pub struct Graph {
    pub period: u32,
    pub offset: u32,
    pub nodes: Vec<Node>,
}

/// A whole table. Graph number g stands at `graphs[g - 1]`.
#[derive(Clone, Debug, PartialEq, Eq)]
pub struct Table {
    pub processors: u32,
    pub rounds: u32,
    pub graphs: Vec<Graph>,
}

impl Table {
    /// The instant of boundary 0.
    pub fn largest_offset(&self) -> u32 {
        self.graphs.iter().map(|g| g.offset).max().unwrap_or(0)
    }

    /// The nodes of all graphs.
    pub fn node_total(&self) -> usize {
        self.graphs.iter().map(|g| g.nodes.len()).sum()
    }

    /// The table's text in the nine keys and their fixed order.
    pub fn text(&self) -> String {
        let mut text =
            format!("processors={}\nrounds={}\ngraphs={}\n", self.processors, self.rounds, self.graphs.len());
        for graph in &self.graphs {
            text +=
                &format!("period={}\noffset={}\nnodes={}\n", graph.period, graph.offset, graph.nodes.len());
            for node in &graph.nodes {
                text += &format!(
                    "budget={}\nlevel={}\nafter={}\n",
                    node.budget,
                    node.level,
                    after_text(&node.after)
                );
            }
        }
        text
    }
}

/// `none`, or the numbers parted by single commas.
fn after_text(after: &[u32]) -> String {
    if after.is_empty() {
        return "none".to_string();
    }
    let numbers: Vec<String> = after.iter().map(u32::to_string).collect();
    numbers.join(",")
}
