// Links the proved static libraries, which the script beside this file builds first.
fn main() {
    println!("cargo:rerun-if-env-changed=MILL_STATICLIB");
    println!("cargo:rerun-if-env-changed=RATTLE_LIB");
    let library = std::env::var("MILL_STATICLIB").expect("run this through checks/run or checks/bench");
    let kit = std::env::var("RATTLE_LIB").expect("run this through checks/run or checks/bench");
    for name in ["ffi", "ffi_run"] {
        println!("cargo:rerun-if-changed={library}/lib{name}.a");
        println!("cargo:rustc-link-lib=static={name}");
    }
    println!("cargo:rustc-link-search=native={library}");
    println!("cargo:rustc-link-search=native={kit}");
    println!("cargo:rustc-link-lib=static=libc_c");
}
