// Links libosmocore, the implementation that the field uses.
fn main() {
    println!("cargo:rustc-link-lib=osmogsm");
    println!("cargo:rustc-link-lib=osmocore");
}
