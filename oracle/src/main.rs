//! `oracle write DIR` writes crates/replay_NAME/{stdin,stdout} below DIR, of the programs that
//! DIR/crates.txt lists; `oracle check DIR` works them out again and fails on a difference;
//! `oracle fit` is the file program.

use oracle::vectors::{self, Vectors};
use std::io::Read;
use std::path::{Path, PathBuf};
use std::process::ExitCode;

fn files(dir: &Path, vectors: &Vectors) -> [(PathBuf, Vec<u8>); 2] {
    let dir = dir.join("crates").join(vectors.name);
    [
        (dir.join("stdin"), vectors.stdin.clone()),
        (dir.join("stdout"), vectors.stdout.clone().into_bytes()),
    ]
}

/// The vectors of the programs that crates.txt lists.
fn listed(dir: &Path) -> std::io::Result<Vec<Vectors>> {
    let crates = std::fs::read_to_string(dir.join("crates.txt"))?;
    let mut all = vectors::all();
    all.retain(|v| {
        crates
            .lines()
            .any(|line| line.split(':').next() == Some(v.name))
    });
    Ok(all)
}

fn write(dir: &Path) -> std::io::Result<()> {
    for vectors in listed(dir)? {
        for (path, content) in files(dir, &vectors) {
            std::fs::create_dir_all(path.parent().expect("a directory"))?;
            std::fs::write(&path, &content)?;
            println!("{} {}", path.display(), content.len());
        }
    }
    Ok(())
}

fn check(dir: &Path) -> std::io::Result<bool> {
    let mut equal = true;
    for vectors in listed(dir)? {
        for (path, content) in files(dir, &vectors) {
            let same = std::fs::read(&path).is_ok_and(|stored| stored == content);
            println!(
                "{} {}",
                path.display(),
                if same { "same" } else { "different" }
            );
            equal &= same;
        }
    }
    Ok(equal)
}

fn fit() -> std::io::Result<()> {
    let mut input = Vec::new();
    std::io::stdin().read_to_end(&mut input)?;
    print!("{}", oracle::pmf::listing(&input));
    Ok(())
}

fn main() -> ExitCode {
    let args: Vec<String> = std::env::args().skip(1).collect();
    let args: Vec<&str> = args.iter().map(String::as_str).collect();
    let done = match args[..] {
        ["write", dir] => write(Path::new(dir)).is_ok(),
        ["check", dir] => check(Path::new(dir)).is_ok_and(|equal| equal),
        ["fit"] => fit().is_ok(),
        _ => {
            eprintln!("oracle write DIR | oracle check DIR | oracle fit");
            false
        }
    };
    if done {
        ExitCode::SUCCESS
    } else {
        ExitCode::FAILURE
    }
}
