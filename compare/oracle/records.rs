//! From the tree of node.rs to stored records: seven words a record, children before their parent,
//! and the bytes of all texts in record order.
//!
//! A program that uses this module has `mod node;` (the unchanged file) at its root.

use crate::node::{
    ConflictMarkerKind, ContextDeclaration, Expression, ExpressionKind, ExternalPropDeclaration,
    ExternalPropSourceDeclaration, ExternalSpecializeDeclaration, ExternalTokenDeclaration,
    GrammarDeclaration, Identifier, LiteralDeclaration, LiteralExpression, LocalTokenDeclaration,
    NameExpression, NamedNode, PrecDeclaration, PrecItem, PrecKind, Prop, PropPart, RepeatKind,
    RuleDeclaration, ScopedSkipDeclaration, SpecializeExpression, SpecializeKind,
    TokenConflictDeclaration, TokenDeclaration, TokenPrecDeclaration, TokenReference,
};

/// Words of one record.
pub const WIDTH: usize = 7;

/// Records and texts of one tree.
#[derive(Clone, Debug, Default, Eq, PartialEq)]
pub struct Stored {
    pub words: Vec<u32>,
    pub texts: Vec<u8>,
}

/// The records of a whole grammar; the last one is the grammar itself.
pub fn of_grammar(grammar: &GrammarDeclaration) -> Stored {
    let mut stored = Stored::default();
    stored.grammar(grammar);
    stored
}

/// The records of one expression; the last one is the expression itself.
pub fn of_expression(expression: &Expression) -> Stored {
    let mut stored = Stored::default();
    stored.expression(expression);
    stored
}

/// What a record says besides its text and its children.
#[derive(Clone, Copy, Default)]
struct Row {
    kind: u32,
    start: usize,
    value: u32,
    second: u32,
}

impl Row {
    const fn at(kind: u32, start: usize) -> Self {
        Self {
            kind,
            start,
            value: 0,
            second: 0,
        }
    }

    const fn value(mut self, value: u32) -> Self {
        self.value = value;
        self
    }
}

fn word(number: usize) -> u32 {
    u32::try_from(number).expect("a word holds every place and count")
}

const fn specialize_value(kind: SpecializeKind) -> u32 {
    match kind {
        SpecializeKind::Extend => 1,
        SpecializeKind::Specialize => 2,
    }
}

impl Stored {
    fn push(&mut self, row: Row, text: &str, children: usize) {
        let place = if text.is_empty() { 0 } else { self.texts.len() };
        self.words.extend([
            row.kind,
            word(row.start),
            word(place),
            word(text.len()),
            row.value,
            row.second,
            word(children),
        ]);
        self.texts.extend(text.bytes());
    }

    /// Stores each item of a list and says how many there are.
    fn each<T>(&mut self, items: &[T], store: impl Fn(&mut Self, &T)) -> usize {
        for item in items {
            store(self, item);
        }
        items.len()
    }

    fn identifier(&mut self, kind: u32, id: &Identifier) {
        self.push(Row::at(kind, id.start), &id.name, 0);
    }

    fn source(&mut self, source: &str) {
        self.push(Row::at(15, 0), source, 0);
    }

    // ---------------------------------------------------------------- props

    fn part(&mut self, part: &PropPart) {
        match (&part.value, &part.name) {
            (Some(text), None) => self.push(Row::at(6, part.start), text, 0),
            (None, Some(name)) => self.push(Row::at(7, part.start), name, 0),
            _ => panic!("a part has either a text or a name"),
        }
    }

    fn prop(&mut self, prop: &Prop) {
        let children = self.each(&prop.value, Self::part);
        let row = Row::at(5, prop.start).value(u32::from(prop.at));
        self.push(row, &prop.name, children);
    }

    fn props(&mut self, props: &[Prop]) -> usize {
        self.each(props, Self::prop)
    }

    // ---------------------------------------------------------------- expressions

    fn name(&mut self, name: &NameExpression) {
        let children = self.each(&name.arguments, Self::expression);
        self.push(Row::at(30, name.start), &name.id.name, children);
    }

    fn literal(&mut self, literal: &LiteralExpression) {
        self.push(Row::at(36, literal.start), &literal.value, 0);
    }

    fn specialize(&mut self, start: usize, special: &SpecializeExpression) {
        let props = self.props(&special.props);
        self.expression(&special.token);
        self.expression(&special.content);
        let row = Row::at(31, start).value(specialize_value(special.kind));
        self.push(row, "", props + 2);
    }

    fn expression(&mut self, expression: &Expression) {
        let start = expression.start;
        match &expression.kind {
            ExpressionKind::Name(name) => self.name(name),
            ExpressionKind::Specialize(special) => self.specialize(start, special),
            ExpressionKind::InlineRule(rule) => {
                let props = self.props(&rule.props);
                self.expression(&rule.expression);
                self.push(Row::at(32, start), &rule.id.name, props + 1);
            }
            ExpressionKind::Choice(arms) => {
                let children = self.each(arms, Self::expression);
                self.push(Row::at(33, start), "", children);
            }
            ExpressionKind::Sequence {
                expressions,
                markers,
                explicitly_empty,
            } => {
                let mut children = expressions.len();
                let mut rest = expressions.iter();
                // Each slot's markers, then the next expression; the last slot has none after it.
                for slot in markers {
                    children += self.each(slot, |stored, marker| {
                        let kind = match marker.kind {
                            ConflictMarkerKind::Ambiguity => 41,
                            ConflictMarkerKind::Precedence => 42,
                        };
                        stored.push(Row::at(kind, marker.start), &marker.id.name, 0);
                    });
                    if let Some(next) = rest.next() {
                        self.expression(next);
                    }
                }
                let row = Row::at(34, start).value(u32::from(*explicitly_empty));
                self.push(row, "", children);
            }
            ExpressionKind::Repeat { expression, kind } => {
                self.expression(expression);
                let value = match kind {
                    RepeatKind::Optional => 0,
                    RepeatKind::ZeroOrMore => 1,
                    RepeatKind::OneOrMore => 2,
                };
                self.push(Row::at(35, start).value(value), "", 1);
            }
            ExpressionKind::Literal(literal) => self.literal(literal),
            ExpressionKind::Set(set) => {
                for &(first, past) in &set.ranges {
                    let row = Row {
                        kind: 38,
                        start,
                        value: first,
                        second: past,
                    };
                    self.push(row, "", 0);
                }
                let row = Row::at(37, start).value(u32::from(set.inverted));
                self.push(row, "", set.ranges.len());
            }
            ExpressionKind::Any => self.push(Row::at(39, start), "", 0),
            ExpressionKind::CharClass(class) => {
                self.push(Row::at(40, start).value(*class as u32), "", 0);
            }
        }
    }

    // ---------------------------------------------------------------- rules and blocks

    fn rule(&mut self, kind: u32, rule: &RuleDeclaration) {
        let props = self.props(&rule.props);
        let params = self.each(&rule.params, |stored, id| stored.identifier(4, id));
        self.expression(&rule.expression);
        self.push(Row::at(kind, rule.start), &rule.id.name, props + params + 1);
    }

    fn top_rule(&mut self, rule: &RuleDeclaration) {
        self.rule(2, rule);
    }

    fn plain_rule(&mut self, rule: &RuleDeclaration) {
        self.rule(3, rule);
    }

    fn reference(&mut self, reference: &TokenReference) {
        match reference {
            TokenReference::Name(name) => self.name(name),
            TokenReference::Literal(literal) => self.literal(literal),
        }
    }

    fn token_precedence(&mut self, precedence: &TokenPrecDeclaration) {
        let children = self.each(&precedence.items, Self::reference);
        self.push(Row::at(9, precedence.start), "", children);
    }

    fn token_conflict(&mut self, conflict: &TokenConflictDeclaration) {
        self.reference(&conflict.left);
        self.reference(&conflict.right);
        self.push(Row::at(10, conflict.start), "", 2);
    }

    fn literal_declaration(&mut self, literal: &LiteralDeclaration) {
        let children = self.props(&literal.props);
        self.push(Row::at(11, literal.start), &literal.literal, children);
    }

    fn named_node(&mut self, node: &NamedNode) {
        let children = self.props(&node.props);
        self.push(Row::at(13, node.id.start), &node.id.name, children);
    }

    fn tokens(&mut self, block: &TokenDeclaration) {
        let children = self.each(&block.precedences, Self::token_precedence)
            + self.each(&block.conflicts, Self::token_conflict)
            + self.each(&block.rules, Self::plain_rule)
            + self.each(&block.literals, Self::literal_declaration);
        self.push(Row::at(8, block.start), "", children);
    }

    fn local_tokens(&mut self, block: &LocalTokenDeclaration) {
        let children = self.each(&block.precedences, Self::token_precedence)
            + self.each(&block.rules, Self::plain_rule)
            + self.each(block.fallback.as_slice(), Self::named_node);
        self.push(Row::at(12, block.start), "", children);
    }

    // ---------------------------------------------------------------- declarations

    fn context(&mut self, context: &ContextDeclaration) {
        self.source(&context.source);
        self.push(Row::at(14, context.start), &context.id.name, 1);
    }

    fn external_tokens(&mut self, block: &ExternalTokenDeclaration) {
        self.source(&block.source);
        let children = self.each(&block.tokens, Self::named_node)
            + self.each(&block.conflicts, |stored, id| stored.identifier(17, id));
        self.push(Row::at(16, block.start), &block.id.name, children + 1);
    }

    fn external_specializer(&mut self, block: &ExternalSpecializeDeclaration) {
        self.expression(&block.token);
        self.source(&block.source);
        let children = self.each(&block.tokens, Self::named_node);
        let row = Row::at(18, block.start).value(specialize_value(block.kind));
        self.push(row, &block.id.name, children + 2);
    }

    fn external_prop_source(&mut self, source: &ExternalPropSourceDeclaration) {
        self.source(&source.source);
        self.push(Row::at(19, source.start), &source.id.name, 1);
    }

    fn precedence_item(&mut self, item: &PrecItem) {
        let value = match item.kind {
            None => 0,
            Some(PrecKind::Left) => 1,
            Some(PrecKind::Right) => 2,
            Some(PrecKind::Cut) => 3,
        };
        self.push(Row::at(21, item.id.start).value(value), &item.id.name, 0);
    }

    fn precedences(&mut self, block: &PrecDeclaration) {
        let children = self.each(&block.items, Self::precedence_item);
        self.push(Row::at(20, block.start), "", children);
    }

    fn main_skip(&mut self, expression: &Expression) {
        self.expression(expression);
        self.push(Row::at(22, expression.start), "", 1);
    }

    fn scoped_skip(&mut self, block: &ScopedSkipDeclaration) {
        self.expression(&block.expression);
        let children =
            self.each(&block.top_rules, Self::top_rule) + self.each(&block.rules, Self::plain_rule);
        self.push(Row::at(23, block.expression.start), "", children + 1);
    }

    fn external_prop(&mut self, prop: &ExternalPropDeclaration) {
        self.identifier(26, &prop.external_id);
        self.source(&prop.source);
        self.push(Row::at(25, prop.start), &prop.id.name, 2);
    }

    fn grammar(&mut self, grammar: &GrammarDeclaration) {
        let children = self.each(&grammar.top_rules, Self::top_rule)
            + self.each(&grammar.rules, Self::plain_rule)
            + self.each(grammar.tokens.as_slice(), Self::tokens)
            + self.each(&grammar.local_tokens, Self::local_tokens)
            + self.each(grammar.context.as_slice(), Self::context)
            + self.each(&grammar.external_tokens, Self::external_tokens)
            + self.each(&grammar.external_specializers, Self::external_specializer)
            + self.each(&grammar.external_prop_sources, Self::external_prop_source)
            + self.each(grammar.precedences.as_slice(), Self::precedences)
            + self.each(grammar.main_skip.as_slice(), Self::main_skip)
            + self.each(&grammar.scoped_skip, Self::scoped_skip)
            + self.each(&grammar.dialects, |stored, id| stored.identifier(24, id))
            + self.each(&grammar.external_props, Self::external_prop);
        let row = Row::at(1, grammar.start).value(u32::from(grammar.auto_delimiters));
        self.push(row, "", children);
    }
}
