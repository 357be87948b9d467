// Links the library: of the folder that JIHLUKA_OUT names, or out/ of the repository, or where pkg-config says
// that it is installed. JIHLUKA_LINK says how: `static`, which is meant without it, or `dylib`.
use std::env;
use std::path::Path;
use std::process::Command;

fn installed() -> Option<String> {
    let told = Command::new("pkg-config")
        .args(["--variable=libdir", "jihluka"])
        .output()
        .ok()?;
    let folder = String::from_utf8(told.stdout).ok()?.trim().to_owned();
    (!folder.is_empty()).then_some(folder)
}

fn main() {
    for variable in ["JIHLUKA_OUT", "JIHLUKA_LINK", "PKG_CONFIG_PATH"] {
        println!("cargo:rerun-if-env-changed={variable}");
    }
    let (kind, file) = match env::var("JIHLUKA_LINK").as_deref() {
        Err(_) | Ok("static") => ("static", "libjihluka.a"),
        // The loader takes the object for the processor, where there are two.
        Ok("dylib") => ("dylib", "libjihluka.so"),
        Ok(other) => panic!("JIHLUKA_LINK is `{other}`, and not `static` or `dylib`"),
    };
    let built = concat!(env!("CARGO_MANIFEST_DIR"), "/../../out").to_owned();
    let folder = match env::var("JIHLUKA_OUT") {
        Ok(folder) => folder,
        Err(_) if Path::new(&built).join(file).exists() => built,
        Err(_) => installed().unwrap_or(built),
    };
    let library = Path::new(&folder).join(file);
    if !library.exists() {
        println!(
            "cargo:warning={} isn't there: examples/build or make install makes it",
            library.display()
        );
    }
    println!("cargo:rerun-if-changed={}", library.display());
    println!("cargo:rustc-link-search=native={folder}");
    println!("cargo:rustc-link-lib={kind}=jihluka");
}
