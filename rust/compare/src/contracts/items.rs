//! Items, and what they are made of. What is nested stops where no bracket more may be open.

use super::text::Text;

const MOST_OPEN: usize = 48;
const MOST_IN_A_ROW: usize = 8;
/// Arms that belong together, in their order.
const PAIRS: [[&str; 2]; 3] = [["Left", "Right"], ["None", "Some"], ["false", "true"]];

/// One element of a list.
type Element<'a> = fn(&mut Text<'a>);

impl<'a> Text<'a> {
    /// A function or a type.
    pub fn item(&mut self) {
        if self.random.one_in(3) {
            self.put("type");
            self.name();
            self.put("=");
            self.ty();
            return self.put(";");
        }
        if self.random.one_in(4) {
            self.put("pub");
        }
        self.put("fn");
        self.name();
        self.listed(["(", ")"], Self::pair);
        if self.random.one_in(2) {
            self.put("->");
            self.ty();
        }
        self.block();
    }

    /// Whether something with brackets may come here.
    fn nests(&mut self) -> bool {
        self.left > 0 && self.opens() && !self.random.one_in(self.style.leaves)
    }

    fn opens(&self) -> bool {
        self.open < MOST_OPEN
    }

    /// How many elements: mostly a few, now and then as many as there are tokens left for.
    fn some(&mut self) -> usize {
        let left = self.left.max(0) as usize;
        let most = if self.random.one_in(20) { left / 3 } else { 4 };
        self.random.below(most + 1)
    }

    /// Elements in brackets, with a comma behind the last or not.
    fn listed(&mut self, brackets: [&str; 2], element: Element<'a>) {
        let count = self.some();
        self.counted(brackets, element, count);
    }

    fn counted(&mut self, [open, close]: [&str; 2], element: Element<'a>, count: usize) {
        self.open(open);
        for at in 0..count {
            element(self);
            if at + 1 < count || self.random.one_in(3) {
                self.put(",");
            }
        }
        self.close(close);
    }

    /// A pattern and its type, or a parameter and its type.
    fn pair(&mut self) {
        self.name();
        self.put(":");
        self.ty();
    }

    fn ty(&mut self) {
        if !self.nests() {
            let leaves = ["u8", "u256", "bool", "Pubkey", "_"];
            let leaf = self.random.one_of(&leaves);
            return if self.random.one_in(2) {
                self.name()
            } else {
                self.put(leaf)
            };
        }
        match self.random.below(5) {
            0 => self.listed(["(", ")"], Self::ty),
            1 => self.sized_type("[", ";", "]"),
            2 => {
                self.put("List");
                self.sized_type("<", ",", ">");
            }
            3 => {
                self.put("Option");
                self.open("<");
                self.ty();
                self.close(">");
            }
            _ => {
                self.put("Either");
                self.open("<");
                self.ty();
                self.put(",");
                self.ty();
                self.close(">");
            }
        }
    }

    fn sized_type(&mut self, open: &str, between: &str, close: &str) {
        self.open(open);
        self.ty();
        self.put(between);
        self.bound();
        self.close(close);
    }

    /// A power of two, which is a size too.
    fn bound(&mut self) {
        let bound = 2u64 << self.random.below(63);
        self.put(&bound.to_string());
    }

    fn pattern(&mut self) {
        if !self.nests() {
            return self.name();
        }
        let brackets = self.random.one_of(&[["(", ")"], ["[", "]"]]);
        self.listed(brackets, Self::pattern);
    }

    fn block(&mut self) {
        self.open("{");
        for _ in 0..self.some() {
            if self.random.one_in(3) {
                self.put("let");
                self.pattern();
                self.put(":");
                self.ty();
                self.put("=");
            }
            self.expression();
            self.put(";");
        }
        if self.random.one_in(2) {
            self.expression();
        }
        self.close("}");
    }

    fn expression(&mut self) {
        if !self.nests() {
            return self.leaf();
        }
        match self.random.below(10) {
            0 => self.listed(["(", ")"], Self::expression),
            1 => self.listed(["[", "]"], Self::expression),
            2 => {
                self.put("list!");
                self.listed(["[", "]"], Self::expression);
            }
            3 => self.block(),
            4 | 5 => self.call(),
            6 => {
                let word = self.random.one_of(&["Left", "Right", "Some"]);
                self.put(word);
                self.listed(["(", ")"], Self::expression);
            }
            7 => {
                self.path();
                self.listed(["(", ")"], Self::expression);
            }
            _ => self.matched(1),
        }
    }

    fn leaf(&mut self) {
        let leaves = [
            "None",
            "true",
            "false",
            "1",
            "1_0",
            "0xAF",
            "0b1_0",
            "witness::w",
            "param::p",
        ];
        let leaf = self.random.one_of(&leaves);
        match self.random.below(4) {
            0 => self.put(leaf),
            1 => self.path(),
            _ => self.name(),
        }
    }

    /// Two names or more.
    fn path(&mut self) {
        self.name();
        for _ in 0..1 + self.random.below(3) {
            self.put("::");
            self.name();
        }
    }

    fn call(&mut self) {
        match self.random.below(6) {
            0 => {
                self.open("<");
                self.ty();
                self.close(">");
                self.put_all(":: into");
            }
            1 => {
                let words = ["unwrap_left", "unwrap_right", "is_none", "raw_hash"];
                let word = self.random.one_of(&words);
                self.put(word);
                self.generic(Self::ty);
            }
            2 => {
                let word = self.random.one_of(&["fold", "array_fold"]);
                self.put(word);
                self.generic(|text| {
                    text.name();
                    text.put(",");
                    text.bound();
                });
            }
            3 => {
                self.put("for_while");
                self.generic(Self::name);
            }
            4 => {
                let words = ["unwrap", "assert!", "panic!", "dbg!", "jet::add", "jet::_"];
                let word = self.random.one_of(&words);
                self.put(word);
            }
            _ => self.name(),
        }
        self.listed(["(", ")"], Self::expression);
    }

    fn generic(&mut self, inside: Element<'a>) {
        self.put("::");
        self.open("<");
        inside(self);
        self.close(">");
    }

    /// A match that is so many in a row, with its arms either way round.
    fn matched(&mut self, row: usize) {
        self.put("match");
        if row < MOST_IN_A_ROW && self.nests() && self.random.one_in(2) {
            self.matched(row + 1);
        } else {
            self.leaf();
        }
        self.open("{");
        if self.random.one_in(4) {
            for _ in 0..1 + self.some() {
                self.enum_arm();
            }
        } else {
            // The last pair needs no bracket.
            let pairs = if self.opens() { &PAIRS } else { &PAIRS[2..] };
            let [one, other] = self.random.one_of(pairs);
            let turned = self.random.one_in(2);
            self.built_in_arm(if turned { other } else { one });
            self.built_in_arm(if turned { one } else { other });
        }
        self.close("}");
    }

    fn enum_arm(&mut self) {
        self.path();
        if self.opens() && self.random.one_in(2) {
            let count = 1 + self.some();
            self.counted(["(", ")"], Self::typed_pattern, count);
        }
        self.arm();
    }

    fn built_in_arm(&mut self, word: &str) {
        self.put(word);
        if matches!(word, "Left" | "Right" | "Some") {
            self.open("(");
            self.typed_pattern();
            self.close(")");
        }
        self.arm();
    }

    fn typed_pattern(&mut self) {
        self.pattern();
        self.put(":");
        self.ty();
    }

    /// Only behind a block may the comma be missing.
    fn arm(&mut self) {
        self.put("=>");
        if self.opens() && self.random.one_in(3) {
            self.block();
            if self.random.one_in(2) {
                self.put(",");
            }
        } else {
            self.expression();
            self.put(",");
        }
    }
}
