//! The library beside `straight`: the same random input to both, every answer and every lent word compared.

pub mod bench;
pub mod damage;
pub mod dice;
pub mod draft;
pub mod ground;
pub mod limits;
pub mod pair_draft;
pub mod pair_tally;
pub mod plans;
pub mod round;
pub mod rounds;
pub mod skewed;
pub mod tally;
pub mod words;

/// A file of this name in the repository's target/compare.
pub fn saved(name: &str) -> std::path::PathBuf {
    let folder = std::path::Path::new(env!("CARGO_MANIFEST_DIR")).join("../../target/compare");
    std::fs::create_dir_all(&folder).expect("target/compare can be made");
    folder
        .canonicalize()
        .expect("target/compare is there")
        .join(name)
}
