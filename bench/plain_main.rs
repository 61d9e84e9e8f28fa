
// Solves models of the form that solve_models.py writes: whole numbers, each column with both bounds.
use kit::{Global, ToVec};
use proof_tree::{Cut, Mark, PartTree, Searched, Tree, search};
use slice_branch::SliceBrancher;
use std::collections::HashMap;
use whole_rows::{Bounds, DenseRows};

#[derive(Default)]
struct Model {
    kinds: Vec<char>,
    factors: Vec<Vec<i128>>,
    sides: Vec<i128>,
    ranges: Vec<Option<i128>>,
    bounds: Vec<(i128, i128)>,
    cost: Vec<i128>,
}

fn read(text: &str) -> Model {
    let mut model = Model::default();
    let mut rows: HashMap<String, usize> = HashMap::new();
    let mut columns: HashMap<String, usize> = HashMap::new();
    let mut section = String::new();
    for line in text.lines() {
        let words: Vec<&str> = line.split_whitespace().collect();
        if words.is_empty() || line.starts_with('*') {
            continue;
        }
        if !line.starts_with(' ') {
            section = words[0].to_string();
            continue;
        }
        match section.as_str() {
            "ROWS" if words[0] != "N" => {
                rows.insert(words[1].to_string(), model.kinds.len());
                model.kinds.push(words[0].chars().next().unwrap());
                model.sides.push(0);
                model.ranges.push(None);
                model.factors.push(Vec::new());
            }
            "COLUMNS" => {
                let count = columns.len();
                let j = *columns.entry(words[0].to_string()).or_insert(count);
                if j == model.cost.len() {
                    model.cost.push(0);
                    model.bounds.push((0, 0));
                    for row in &mut model.factors {
                        row.push(0);
                    }
                }
                let value: i128 = words[2].parse().unwrap();
                match rows.get(words[1]) {
                    Some(i) => model.factors[*i][j] = value,
                    None => model.cost[j] = value,
                }
            }
            "RHS" => model.sides[rows[words[0]]] = words[1].parse().unwrap(),
            "RANGES" => model.ranges[rows[words[0]]] = Some(words[1].parse().unwrap()),
            "BOUNDS" => {
                let value: i128 = words[2].parse().unwrap();
                let bounds = &mut model.bounds[columns[words[1]]];
                match words[0] {
                    "LI" => bounds.0 = value,
                    _ => bounds.1 = value,
                }
            }
            _ => {}
        }
    }
    model
}

fn rows_of(model: &Model) -> DenseRows {
    let bounds: Vec<Bounds> = model.bounds.iter().map(|b| Bounds { low: b.0, high: b.1 }).collect();
    let mut rows = DenseRows::new(Global, bounds.kit_to_vec(Global).unwrap()).unwrap();
    for i in 0..model.kinds.len() {
        let side = model.sides[i];
        let range = model.ranges[i];
        let (low, high) = match model.kinds[i] {
            'E' => (Some(side), Some(side)),
            'L' => (range.map(|range| side - range), Some(side)),
            _ => (Some(side), range.map(|range| side + range)),
        };
        rows.push_row(&model.factors[i], low, high).unwrap();
    }
    rows.set_cost(&model.cost).unwrap();
    rows
}

#[derive(Default)]
struct Counts {
    nodes: u64,
    plain: u64,
}

impl Counts {
    fn cut(&mut self, cut: &Cut) {
        self.nodes += 1;
        self.plain += (cut.mark == Mark::Plain) as u64;
    }

    fn tree(&mut self, tree: &Tree) {
        match tree {
            Tree::Empty(_) => self.nodes += 1,
            Tree::Split(split) => {
                self.cut(&split.cut);
                for child in &split.children.trees {
                    self.tree(child);
                }
            }
        }
    }

    fn part(&mut self, tree: &PartTree) {
        match tree {
            PartTree::Open(_) => {}
            PartTree::Empty(_) => self.nodes += 1,
            PartTree::Split(split) => {
                self.cut(&split.cut);
                for child in &split.children {
                    self.part(child);
                }
            }
        }
    }
}

unsafe extern "C" {
    // Microseconds of processor time, as POSIX says.
    fn clock() -> i64;
}

fn processor_time() -> f64 {
    unsafe { clock() as f64 / 1e6 }
}

fn solve(path: &str, nodes: u32) {
    let text = std::fs::read_to_string(path).unwrap();
    let rows = rows_of(&read(&text));
    let start = processor_time();
    let mut brancher = SliceBrancher::new(Global, &rows).unwrap();
    let root = brancher.root().unwrap();
    let searched = search(Global, &mut brancher, root, &rows, nodes).unwrap();
    let seconds = processor_time() - start;
    let mut counts = Counts::default();
    let (answer, best) = match &searched {
        Searched::Done { tree, best } => {
            counts.tree(tree);
            (if best.is_some() { "OPTIMAL" } else { "INFEASIBLE" }, best)
        }
        Searched::Spent { part, best } => {
            counts.part(part);
            ("SPENT", best)
        }
    };
    let value = match best {
        Some(point) => rows.cut_value(point.items()).to_string(),
        None => "-".to_string(),
    };
    let name = path.rsplit('/').next().unwrap();
    println!("{name:26} {answer:10} NODES {:6} PLAIN {:4} VALUE {value:>14} {seconds:9.3}", counts.nodes, counts.plain);
}

fn main() {
    let mut nodes = 1000;
    let mut words = std::env::args().skip(1);
    while let Some(word) = words.next() {
        if word == "--nodes" {
            nodes = words.next().unwrap().parse().unwrap();
        } else {
            solve(&word, nodes);
        }
    }
}
