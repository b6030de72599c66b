//! Stand-in for `commonware-macros`, and the place where the comparison gets in.
//!
//! The reference sources are compiled unchanged, so what the driver must see or
//! call inside them has to come in through macros that they invoke themselves:
//!
//! - `select_loop!` stands in the engine's `run`. Here it becomes a loop that
//!   waits for the driver's next order and carries it out with the engine's own
//!   private methods. One of the orders is a turn of the original loop.
//! - `select!` stands in the delivery tracker's future. Here it also reports, as
//!   the future starts, what the tracker has put into it.
//! - `#[derive(EncodeStruct)]` stands in the fetcher's module. Here it adds a
//!   method that reads the fetcher's private fields out.

use proc_macro::{Delimiter, Spacing, TokenStream, TokenTree};

/// One branch: `pattern = future => body`, or `pattern = future else { .. } => body`.
struct Branch {
    pattern: String,
    future: String,
    otherwise: Option<String>,
    body: String,
}

/// Everything inside a `select!` or, after its first argument, a `select_loop!`.
#[derive(Default)]
struct Branches {
    on_start: String,
    on_stopped: String,
    on_end: String,
    branches: Vec<Branch>,
}

struct Parser {
    tokens: Vec<TokenTree>,
    place: usize,
}

impl Parser {
    fn new(tokens: TokenStream) -> Self {
        Self {
            tokens: tokens.into_iter().collect(),
            place: 0,
        }
    }

    fn at_end(&self) -> bool {
        self.place == self.tokens.len()
    }

    fn is_punct(&self, ahead: usize, wanted: char) -> bool {
        matches!(self.tokens.get(self.place + ahead),
            Some(TokenTree::Punct(punct)) if punct.as_char() == wanted)
    }

    fn at_arrow(&self) -> bool {
        matches!(self.tokens.get(self.place),
            Some(TokenTree::Punct(punct)) if punct.as_char() == '=' && punct.spacing() == Spacing::Joint)
            && self.is_punct(1, '>')
    }

    fn at_equals(&self) -> bool {
        matches!(self.tokens.get(self.place),
            Some(TokenTree::Punct(punct)) if punct.as_char() == '=' && punct.spacing() == Spacing::Alone)
    }

    fn next(&mut self) -> TokenTree {
        self.place += 1;
        self.tokens[self.place - 1].clone()
    }

    /// The tokens up to a place that `stop` recognises.
    fn until(&mut self, stop: impl Fn(&Self) -> bool) -> Vec<TokenTree> {
        let mut taken = Vec::new();
        while !stop(self) {
            assert!(!self.at_end(), "a branch has `pattern = future => body`");
            taken.push(self.next());
        }
        taken
    }

    /// The content of `=> { .. }`, with a comma after it if there is one.
    fn body(&mut self) -> String {
        assert!(self.at_arrow(), "expected `=>`");
        self.place += 2;
        let TokenTree::Group(group) = self.next() else {
            panic!("expected a block after `=>`");
        };
        assert_eq!(group.delimiter(), Delimiter::Brace);
        if self.is_punct(0, ',') {
            self.place += 1;
        }
        group.stream().to_string()
    }

    fn branch(&mut self) -> Branch {
        let pattern = text(self.until(Self::at_equals));
        self.place += 1;
        let mut future = self.until(Self::at_arrow);
        let has_else = future.len() >= 2
            && matches!(&future[future.len() - 2],
                TokenTree::Ident(ident) if ident.to_string() == "else");
        let otherwise = has_else.then(|| {
            let block = text(future.split_off(future.len() - 1));
            future.pop();
            block
        });
        let future = text(future);
        let body = self.body();
        Branch {
            pattern,
            future,
            otherwise,
            body,
        }
    }

    fn branches(&mut self) -> Branches {
        let mut all = Branches::default();
        while !self.at_end() {
            let word = self.tokens[self.place].to_string();
            let section = match word.as_str() {
                "on_start" => &mut all.on_start,
                "on_stopped" => &mut all.on_stopped,
                "on_end" => &mut all.on_end,
                _ => {
                    all.branches.push(self.branch());
                    continue;
                }
            };
            self.place += 1;
            *section = self.body();
        }
        all
    }
}

fn text(tokens: Vec<TokenTree>) -> String {
    tokens.into_iter().collect::<TokenStream>().to_string()
}

/// An expression that polls the branches in order and runs the body of the first
/// that is ready. If none is, it waits, or answers `idle` where that is given.
fn select_expression(branches: &[Branch], idle: Option<&str>) -> String {
    let mut kinds = String::new();
    let mut cases = String::new();
    let mut futures = String::new();
    let mut polls = String::new();
    let mut arms = String::new();
    for (n, branch) in branches.iter().enumerate() {
        let Branch {
            pattern,
            future,
            otherwise,
            body,
        } = branch;
        kinds += &format!("T{n},");
        cases += &format!("Ready{n}(T{n}),");
        futures += &format!("let mut future_{n} = ::std::pin::pin!({future});");
        polls += &format!(
            "if let ::std::task::Poll::Ready(value) = \
                 ::std::future::Future::poll(future_{n}.as_mut(), cx) {{ \
                 return ::std::task::Poll::Ready(Some(Selected::Ready{n}(value))); }}"
        );
        arms += &format!("Some(Selected::Ready{n}({pattern})) => {{ {body} }}");
        if let Some(otherwise) = otherwise {
            arms += &format!("Some(Selected::Ready{n}(_)) => {otherwise}");
        }
    }
    let (pending, none) = match idle {
        Some(idle) => ("::std::task::Poll::Ready(None)", idle),
        None => ("::std::task::Poll::Pending", "unreachable!()"),
    };
    format!(
        "{{ enum Selected<{kinds}> {{ {cases} }} \
            let selected = {{ {futures} ::std::future::poll_fn(|cx| {{ {polls} {pending} }}).await }}; \
            match selected {{ {arms} None => {{ {none} }} }} }}"
    )
}

/// The first branch that is ready, in order.
#[proc_macro]
pub fn select(input: TokenStream) -> TokenStream {
    let all = Parser::new(input).branches();
    let selected = select_expression(&all.branches, None);
    format!("{{ crate::p2p::drive::delivery_started(&context, previously_accepted); {selected} }}")
        .parse()
        .unwrap()
}

/// The engine's loop, driven by orders.
#[proc_macro]
pub fn select_loop(input: TokenStream) -> TokenStream {
    let mut parser = Parser::new(input);
    parser.until(|parser| parser.is_punct(0, ','));
    parser.place += 1;
    let Branches {
        on_start,
        on_stopped,
        on_end,
        branches,
    } = parser.branches();
    let selected = select_expression(&branches, Some("ran = false;"));
    format!(
        "loop {{ \
            let order = crate::p2p::drive::next_order::<P, Key, Con::Subscriber>().await; \
            crate::p2p::drive::carry_out!( \
                self, sender, order, \
                turn {{ {on_start} let mut ran = true; {selected} ran }}, \
                on_end {{ {on_end} }}, \
                on_stopped {{ {on_stopped} }} \
            ); \
        }}"
    )
    .parse()
    .unwrap()
}

/// Nothing for the struct itself: a way to look into the module that it is in.
#[proc_macro_derive(EncodeStruct)]
pub fn encode_struct(_: TokenStream) -> TokenStream {
    "crate::p2p::observe::look_inside_fetcher! {}"
        .parse()
        .unwrap()
}
