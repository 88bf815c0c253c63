//! The crate's `TestBackend` with a count of the items that were drawn, as the port's keeps one. The crate has none.
use ratatui_core::backend::{self, Backend, ClearType, WindowSize};
use ratatui_core::buffer::{Buffer, Cell};
use ratatui_core::layout::{Position, Size};
use std::convert::Infallible;

pub type TestError = Infallible;

pub struct TestBackend {
    inner: backend::TestBackend,
    written: u64,
}

impl TestBackend {
    pub fn new(width: u16, height: u16) -> Self {
        TestBackend { inner: backend::TestBackend::new(width, height), written: 0 }
    }
    pub fn buffer(&self) -> &Buffer {
        self.inner.buffer()
    }
    pub fn cells_written(&self) -> u64 {
        self.written
    }
}

impl Backend for TestBackend {
    type Error = TestError;

    fn draw<'a, I>(&mut self, content: I) -> Result<(), TestError>
    where
        I: Iterator<Item = (u16, u16, &'a Cell)>,
    {
        let written = &mut self.written;
        self.inner.draw(content.inspect(|_| *written = written.saturating_add(1)))
    }
    fn append_lines(&mut self, n: u16) -> Result<(), TestError> {
        self.inner.append_lines(n)
    }
    fn hide_cursor(&mut self) -> Result<(), TestError> {
        self.inner.hide_cursor()
    }
    fn show_cursor(&mut self) -> Result<(), TestError> {
        self.inner.show_cursor()
    }
    fn get_cursor_position(&mut self) -> Result<Position, TestError> {
        self.inner.get_cursor_position()
    }
    fn set_cursor_position<P: Into<Position>>(&mut self, position: P) -> Result<(), TestError> {
        self.inner.set_cursor_position(position)
    }
    fn clear(&mut self) -> Result<(), TestError> {
        self.inner.clear()
    }
    fn clear_region(&mut self, clear_type: ClearType) -> Result<(), TestError> {
        self.inner.clear_region(clear_type)
    }
    fn size(&self) -> Result<Size, TestError> {
        self.inner.size()
    }
    fn window_size(&mut self) -> Result<WindowSize, TestError> {
        self.inner.window_size()
    }
    fn flush(&mut self) -> Result<(), TestError> {
        self.inner.flush()
    }
    #[cfg(feature = "scrolling-regions")]
    fn scroll_region_up(&mut self, region: core::ops::Range<u16>, n: u16) -> Result<(), TestError> {
        self.inner.scroll_region_up(region, n)
    }
    #[cfg(feature = "scrolling-regions")]
    fn scroll_region_down(&mut self, region: core::ops::Range<u16>, n: u16) -> Result<(), TestError> {
        self.inner.scroll_region_down(region, n)
    }
}
