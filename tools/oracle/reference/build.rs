fn main() {
    prepare::lay_out(&[]);
}
