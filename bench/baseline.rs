// The reduction written by hand, to compare with: baseline FILE ORDER STORE TIMES, where the store is `sparse` or `8` for bytes.
// It prints what the program `reducebench` prints. It trusts its text to be that of a survey.
use std::env;
use std::fs;

trait Field {
    fn sum(&self, a: u16, b: u16) -> u16;
    fn negative(&self, a: u16) -> u16;
    fn product(&self, a: u16, b: u16) -> u16;
    fn inverse(&self, a: u16) -> u16;
}

struct Gf2;

impl Field for Gf2 {
    fn sum(&self, a: u16, b: u16) -> u16 {
        a ^ b
    }

    fn negative(&self, a: u16) -> u16 {
        a
    }

    fn product(&self, a: u16, b: u16) -> u16 {
        a & b
    }

    fn inverse(&self, a: u16) -> u16 {
        a
    }
}

struct GfP {
    p: u16,
    inverses: Vec<u16>,
}

impl GfP {
    fn new(p: u16) -> GfP {
        let inverse = |a| (1..p).find(|b| a * b % p == 1).unwrap_or(0);
        GfP { p, inverses: (0..p).map(inverse).collect() }
    }
}

impl Field for GfP {
    fn sum(&self, a: u16, b: u16) -> u16 {
        let sum = a + b;
        if sum < self.p { sum } else { sum - self.p }
    }

    fn negative(&self, a: u16) -> u16 {
        if a == 0 { 0 } else { self.p - a }
    }

    fn product(&self, a: u16, b: u16) -> u16 {
        a * b % self.p
    }

    fn inverse(&self, a: u16) -> u16 {
        self.inverses[a as usize]
    }
}

// Rows and columns are counted from 0 here.
trait Matrix {
    fn begin(&mut self, rows: usize, columns: usize);
    // A nonzero entry behind the others of its column.
    fn append(&mut self, row: usize, column: usize, code: u16);
    fn entry(&self, row: usize, column: usize) -> u16;
    // One more than the last nonzero row below `end`, or 0.
    fn low(&self, column: usize, end: usize) -> usize;
    fn add<F: Field>(&mut self, field: &F, from: usize, to: usize, factor: u16);
    // The sum of a column's entries in the rows below `end`, each times the row's value.
    fn weighted<F: Field>(&self, field: &F, values: &[u16], column: usize, end: usize) -> u16;
}

// Each column's nonzero entries, rows rising.
#[derive(Default)]
struct Sparse {
    columns: Vec<Vec<(u16, u16)>>,
    merged: Vec<(u16, u16)>,
}

impl Matrix for Sparse {
    fn begin(&mut self, _rows: usize, columns: usize) {
        self.columns.iter_mut().for_each(Vec::clear);
        self.columns.resize_with(columns, Vec::new);
    }

    fn append(&mut self, row: usize, column: usize, code: u16) {
        self.columns[column].push((row as u16, code));
    }

    fn entry(&self, row: usize, column: usize) -> u16 {
        let column = &self.columns[column];
        match column.binary_search_by_key(&(row as u16), |e| e.0) {
            Ok(i) => column[i].1,
            Err(_) => 0,
        }
    }

    fn low(&self, column: usize, end: usize) -> usize {
        let column = &self.columns[column];
        match column.partition_point(|e| (e.0 as usize) < end) {
            0 => 0,
            i => column[i - 1].0 as usize + 1,
        }
    }

    fn add<F: Field>(&mut self, field: &F, from: usize, to: usize, factor: u16) {
        self.merged.clear();
        let (from, old) = (&self.columns[from], &self.columns[to]);
        let mut i = 0;
        for &(row, code) in from {
            while i < old.len() && old[i].0 < row {
                self.merged.push(old[i]);
                i += 1;
            }
            let mut sum = field.product(factor, code);
            if i < old.len() && old[i].0 == row {
                sum = field.sum(old[i].1, sum);
                i += 1;
            }
            if sum != 0 {
                self.merged.push((row, sum));
            }
        }
        self.merged.extend_from_slice(&old[i..]);
        std::mem::swap(&mut self.columns[to], &mut self.merged);
    }

    fn weighted<F: Field>(&self, field: &F, values: &[u16], column: usize, end: usize) -> u16 {
        let entries = self.columns[column].iter().take_while(|e| (e.0 as usize) < end);
        entries.fold(0, |sum, e| field.sum(sum, field.product(values[e.0 as usize], e.1)))
    }
}

// One byte an entry, column by column.
#[derive(Default)]
struct Dense {
    rows: usize,
    bytes: Vec<u8>,
}

impl Dense {
    fn column(&self, column: usize) -> &[u8] {
        &self.bytes[column * self.rows..(column + 1) * self.rows]
    }
}

impl Matrix for Dense {
    fn begin(&mut self, rows: usize, columns: usize) {
        self.rows = rows;
        self.bytes.clear();
        self.bytes.resize(rows * columns, 0);
    }

    fn append(&mut self, row: usize, column: usize, code: u16) {
        self.bytes[column * self.rows + row] = code as u8;
    }

    fn entry(&self, row: usize, column: usize) -> u16 {
        self.bytes[column * self.rows + row] as u16
    }

    fn low(&self, column: usize, end: usize) -> usize {
        let front = &self.column(column)[..end];
        front.iter().rposition(|&code| code != 0).map_or(0, |row| row + 1)
    }

    // The column that is added always stands before the other.
    fn add<F: Field>(&mut self, field: &F, from: usize, to: usize, factor: u16) {
        let (before, behind) = self.bytes.split_at_mut(to * self.rows);
        let from = &before[from * self.rows..(from + 1) * self.rows];
        for (old, &code) in behind.iter_mut().zip(from) {
            if code != 0 {
                *old = field.sum(*old as u16, field.product(factor, code as u16)) as u8;
            }
        }
    }

    fn weighted<F: Field>(&self, field: &F, values: &[u16], column: usize, end: usize) -> u16 {
        let mut sum = 0;
        for (&code, &value) in self.column(column)[..end].iter().zip(values) {
            if code != 0 {
                sum = field.sum(sum, field.product(value, code as u16));
            }
        }
        sum
    }
}

struct System {
    edges: Vec<(u16, u16)>,
    triangles: Vec<(u16, u16, u16)>,
    fence: Vec<u16>,
}

impl System {
    fn edge(&self, a: u16, b: u16) -> usize {
        self.edges.binary_search(&(a, b)).expect("a link")
    }

    // The fence vector's nonzero rows and codes, rows rising.
    fn target(&self, minus: u16) -> Vec<(usize, u16)> {
        let mut target = Vec::new();
        for (i, &u) in self.fence.iter().enumerate() {
            let v = self.fence[(i + 1) % self.fence.len()];
            target.push(if u < v { (self.edge(u, v), 1) } else { (self.edge(v, u), minus) });
        }
        target.sort_unstable();
        target
    }
}

fn load<F: Field, M: Matrix>(field: &F, system: &System, matrix: &mut M) {
    let (e, t) = (system.edges.len(), system.triangles.len());
    let minus = field.negative(1);
    matrix.begin(e + t, t + 1);
    for (j, &(a, b, c)) in system.triangles.iter().enumerate() {
        matrix.append(system.edge(a, b), j, 1);
        matrix.append(system.edge(a, c), j, minus);
        matrix.append(system.edge(b, c), j, 1);
        matrix.append(e + j, j, 1);
    }
    for (row, code) in system.target(minus) {
        matrix.append(row, t, code);
    }
}

// Adds to the column `to` what removes its entry in the row.
fn remove<F: Field, M: Matrix>(field: &F, matrix: &mut M, row: usize, from: usize, to: usize) {
    let minus = field.negative(matrix.entry(row, to));
    let factor = field.product(minus, field.inverse(matrix.entry(row, from)));
    matrix.add(field, from, to, factor);
}

// Reduces the columns, and tells how many additions it took. The owner of a row is one more than the column with that low, or 0.
fn reduce<F: Field, M: Matrix>(
    field: &F,
    matrix: &mut M,
    e: usize,
    t: usize,
    owners: &mut [u16],
) -> u32 {
    let mut additions = 0;
    for j in 0..t {
        let mut low = matrix.low(j, e);
        while low != 0 && owners[low - 1] != 0 {
            remove(field, matrix, low - 1, owners[low - 1] as usize - 1, j);
            additions += 1;
            low = matrix.low(j, low - 1);
        }
        if low != 0 {
            owners[low - 1] = j as u16 + 1;
        }
    }
    for row in (0..e).rev() {
        if owners[row] != 0 && matrix.entry(row, t) != 0 {
            remove(field, matrix, row, owners[row] as usize - 1, t);
            additions += 1;
        }
    }
    additions
}

// The values of the block; `top` is the greatest row that is left of the target.
fn block<F: Field, M: Matrix>(
    field: &F,
    matrix: &M,
    e: usize,
    t: usize,
    owners: &[u16],
    top: usize,
    codes: &mut [u16],
) {
    for row in 0..e {
        codes[row] = if owners[row] != 0 {
            let owner = owners[row] as usize - 1;
            let sum = matrix.weighted(field, codes, owner, row);
            field.product(field.negative(sum), field.inverse(matrix.entry(row, owner)))
        } else if row == top {
            field.inverse(matrix.entry(row, t))
        } else {
            0
        };
    }
}

// Whether there is a filling, the number of additions, and in `codes` the filling or the block.
fn solve<F: Field, M: Matrix>(
    field: &F,
    system: &System,
    matrix: &mut M,
    codes: &mut [u16],
) -> (bool, u32) {
    let (e, t) = (system.edges.len(), system.triangles.len());
    load(field, system, matrix);
    let mut owners = vec![0; e];
    let additions = reduce(field, matrix, e, t, &mut owners);
    let low = matrix.low(t, e);
    if low == 0 {
        for j in 0..t {
            codes[j] = field.negative(matrix.entry(e + j, t));
        }
    } else {
        block(field, matrix, e, t, &owners, low - 1, codes);
    }
    (low == 0, additions)
}

fn numbers(line: &str) -> Vec<u16> {
    line[1..].trim_end_matches(';').split_whitespace().map(|w| w.parse().expect("a number")).collect()
}

fn read(text: &str) -> System {
    let mut lines = text.lines();
    let n = numbers(lines.next().expect("an S line"))[0];
    let rows: Vec<Vec<u16>> = lines.by_ref().take(n as usize).map(|l| numbers(l)[1..].to_vec()).collect();
    let fence = numbers(lines.next().expect("an F line"));
    let linked = |a: u16, b: u16| rows[a as usize - 1].contains(&b);
    let mut edges = Vec::new();
    let mut triangles = Vec::new();
    for a in 1..=n {
        for b in (a + 1..=n).filter(|&b| linked(a, b)) {
            edges.push((a, b));
            for c in (b + 1..=n).filter(|&c| linked(a, c) && linked(b, c)) {
                triangles.push((a, b, c));
            }
        }
    }
    System { edges, triangles, fence }
}

fn run<F: Field, M: Matrix>(field: &F, system: &System, mut matrix: M, times: u32) {
    let (e, t) = (system.edges.len(), system.triangles.len());
    let mut codes = vec![0; e.max(t)];
    let (mut filled, mut additions) = solve(field, system, &mut matrix, &mut codes);
    for _ in 1..times {
        (filled, additions) = solve(field, system, &mut matrix, &mut codes);
    }
    let (kind, count) = if filled { ("filling", t) } else { ("block", e) };
    let mut sum = 0u64;
    for &code in &codes[..count] {
        sum = sum.wrapping_mul(31).wrapping_add(code as u64);
    }
    println!("{kind} E {e} T {t} additions {additions} codes {sum}");
}

fn over<F: Field>(field: &F, system: &System, store: &str, times: u32) {
    match store {
        "sparse" => run(field, system, Sparse::default(), times),
        _ => run(field, system, Dense::default(), times),
    }
}

fn main() {
    let args: Vec<String> = env::args().collect();
    let [_, file, order, store, times] = &args[..] else {
        println!("baseline FILE ORDER STORE TIMES");
        return;
    };
    let system = read(&fs::read_to_string(file).expect("a survey's file"));
    let times = times.parse().expect("a number of times");
    match order.parse().expect("a field's order") {
        2 => over(&Gf2, &system, store, times),
        p => over(&GfP::new(p), &system, store, times),
    }
}
