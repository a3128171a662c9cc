// The archive stands in the folder that the scripts name.
fn main() {
    let folder = std::env::var("DIS_LIB").expect("DIS_LIB: the folder of libabi.a");
    println!("cargo:rustc-link-search=native={folder}");
    println!("cargo:rustc-link-lib=static=abi");
    println!("cargo:rerun-if-env-changed=DIS_LIB");
    println!("cargo:rerun-if-changed={folder}/libabi.a");
}
