//! Stands for `src/span.rs`: where in a source text something was read. Sheets
//! have no source text, so spans carry nothing; errors with spans are the
//! validator's, which the reference never runs.

#[derive(Clone, Copy, Debug, Default, PartialEq, Eq)]
pub struct Span;

#[derive(Clone, Copy, Debug)]
pub struct SourceLocation;

pub type SpanContext = (Span, String);

#[derive(Debug)]
pub struct WithSpan<E>(std::marker::PhantomData<E>);

impl<E> WithSpan<E> {
    pub fn and_then<F, G: FnOnce(E) -> WithSpan<F>>(self, _: G) -> WithSpan<F> {
        unreachable!("the validator is not run")
    }
}

pub trait AddSpan: Sized {
    fn with_span(self) -> WithSpan<Self> {
        unreachable!("the validator is not run")
    }
    fn with_span_handle<H, A>(self, _: H, _: &A) -> WithSpan<Self> {
        unreachable!("the validator is not run")
    }
}

impl<E> AddSpan for E {}
