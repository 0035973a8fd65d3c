//! Stands in for async-trait: takes `async` and `.await` away, so that the trait can be a `dyn` one. Nothing of it is called.
use proc_macro::{Group, TokenStream, TokenTree};

#[proc_macro_attribute]
pub fn async_trait(_: TokenStream, item: TokenStream) -> TokenStream {
    synchronous(item)
}

fn synchronous(stream: TokenStream) -> TokenStream {
    let mut out: Vec<TokenTree> = Vec::new();
    for tree in stream {
        match tree {
            TokenTree::Ident(i) if i.to_string() == "async" => {}
            TokenTree::Ident(i) if i.to_string() == "await" => {
                out.pop();
            }
            TokenTree::Group(g) => {
                let mut group = Group::new(g.delimiter(), synchronous(g.stream()));
                group.set_span(g.span());
                out.push(TokenTree::Group(group));
            }
            tree => out.push(tree),
        }
    }
    out.into_iter().collect()
}
