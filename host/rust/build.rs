// libhost.a is made by `rt lib` in crates/host, in its folder out.
fn main() {
    let dir = concat!(env!("CARGO_MANIFEST_DIR"), "/../../crates/host/out");
    println!("cargo:rustc-link-search=native={dir}");
    println!("cargo:rustc-link-lib=static=host");
    println!("cargo:rerun-if-changed={dir}/libhost.a");
}
