//! Links the static library that `run` has built.

fn main() {
    let folder = std::env::var("SOLVER_C").expect("bench/run says where the library is");
    println!("cargo:rustc-link-search=native={folder}");
    println!("cargo:rustc-link-lib=static=solver_c");
    println!("cargo:rerun-if-changed={folder}/libsolver_c.a");
    println!("cargo:rerun-if-env-changed=SOLVER_C");
}
