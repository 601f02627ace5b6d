// BURJEEG_LIB names the folder of libburjeeg.a.
fn main() {
    let folder = std::env::var("BURJEEG_LIB").expect("BURJEEG_LIB names the folder of libburjeeg.a");
    println!("cargo:rustc-link-search=native={folder}");
    println!("cargo:rustc-link-lib=static=burjeeg");
    println!("cargo:rerun-if-env-changed=BURJEEG_LIB");
}
