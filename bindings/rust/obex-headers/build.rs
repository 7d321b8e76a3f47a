//! Links libheaders_c.a; obex-link says where it is looked for.
fn main() {
    obex_link::archive("headers_c");
}
