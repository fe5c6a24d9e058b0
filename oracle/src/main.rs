fn main() {
    oracle::main();
}
