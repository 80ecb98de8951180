//! The factorisations of `crates/jacobi/proofs/Examples.antt` by plain Rust: for each, the columns of
//! A with those of V below them, as bits, the sweeps made, and whether the last had no turn.
#[allow(dead_code)]
mod plain;

fn main() {
    let examples = [
        ("turning", [[1.0, 0.0], [1.0, 1.0]]),
        ("equal", [[1.0, 0.0], [-1.0, 0.0]]),
        ("still", [[3.0, 4.0], [4.0, -3.0]]),
        ("zero column", [[0.0, 0.0], [1.0, 2.0]]),
    ];
    for (name, columns) in examples {
        let mut a: plain::Columns = columns.iter().map(|x| x.to_vec()).collect();
        let mut v = plain::identity(2);
        let (made, settled) = plain::factorise(&mut a, &mut v);
        println!("{name}: {made} sweeps, settled {settled}");
        for (x, y) in a.iter().zip(&v) {
            let bits: Vec<String> = x
                .iter()
                .chain(y)
                .map(|z| format!("{:#x}", z.to_bits()))
                .collect();
            println!("    {}", bits.join(" "));
        }
    }
}
