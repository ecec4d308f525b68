//! A plain walk: lists every folder below the one that is named, asks for the size of each file, and says how many there are.
use std::path::Path;
use std::{env, fs, io};

fn count(folder: &Path) -> io::Result<u64> {
    let mut names = fs::read_dir(folder)?.map(|entry| entry.map(|entry| entry.path())).collect::<io::Result<Vec<_>>>()?;
    names.sort();
    let mut files = 0;
    for name in names {
        let about = fs::symlink_metadata(&name)?;
        files += if about.is_dir() { count(&name)? } else { u64::from(about.len() < u64::MAX) };
    }
    Ok(files)
}

fn main() -> io::Result<()> {
    let root = env::args().nth(1).expect("a folder");
    println!("{}", count(Path::new(&root))?);
    Ok(())
}
