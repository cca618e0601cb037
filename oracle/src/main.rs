fn main() {
    std::process::exit(naga::front::main());
}
