//! A small drawing part: lines of 160 pixels from what a bus gives, whichever bus it is. oracle's side draws with this file too (draw/).

/// The numbers that the drawing part and the bus share.
pub struct Numbers {
    pub screen_disabled: bool,
    pub scan_line: u8,
    pub irq48_signal: u8,
    pub lcd_status_mode: u8,
    pub screen_enable_delay_cycles: i32,
    pub cycles_counter: i32,
    pub aux_cycles_counter: i32,
    pub window_line: i32,
}

/// What drawing asks of a bus, and tells it.
pub trait Bus {
    fn read_byte(&self, index: u16) -> u8;
    fn write_byte(&mut self, index: u16, value: u8);
    fn read_cgb_lcd_ram(&self, index: u16, bank: u8) -> u8;
    /// 40 sprites of four bytes.
    fn oam(&self) -> [u8; 160];
    /// Red, green, blue of the background's 32 colours, then of the sprites'.
    fn colors(&self) -> [[u8; 3]; 64];
    fn numbers(&self) -> Numbers;
    fn set_screen_disabled(&mut self, to: bool);
    fn set_scan_line(&mut self, to: u8);
    fn set_lcd_status_mode(&mut self, to: u8);
    fn set_screen_enable_delay_cycles(&mut self, to: i32);
    fn set_cycles_counter(&mut self, to: i32);
    fn set_aux_cycles_counter(&mut self, to: i32);
    fn set_window_line(&mut self, to: i32);
    fn compare_ly_to_lyc(&mut self);
    fn request_vblank(&mut self);
    fn is_hdma_enabled(&self) -> bool;
    fn do_hdma(&mut self) -> i32;
}

const WIDTH: usize = 160;
pub const HEIGHT: u8 = 144;
const LINE_CYCLES: i32 = 456;

/// A sum over bytes: another byte or another order gives another sum.
#[derive(Clone, Copy, Default)]
pub struct Digest(pub u64);

impl Digest {
    pub fn add(&mut self, byte: u8) {
        self.0 = (self.0 * 257 + u64::from(byte) + 1) % 4294967291;
    }

    fn add_all(&mut self, bytes: &[u8]) {
        bytes.iter().for_each(|&byte| self.add(byte));
    }
}

/// The screen as the host keeps it: the next line, and sums of the picture so far and of all else that drawing reads.
#[derive(Default)]
pub struct Screen {
    is_cgb: bool,
    line: u8,
    picture: Digest,
    read: Digest,
}

impl Screen {
    pub fn new(is_cgb: bool) -> Screen {
        Screen { is_cgb, ..Screen::default() }
    }

    /// Draws the lines before `end`. At the last one the frame ends: the sums of its picture and of what was read for it.
    pub fn draw<B: Bus>(&mut self, bus: &mut B, end: u8) -> Option<(Digest, Digest)> {
        while self.line < end.min(HEIGHT) {
            let row = if bus.numbers().screen_disabled { wait(bus) } else { self.row(bus) };
            row.iter().for_each(|pixel| self.picture.add_all(&pixel.to_be_bytes()));
            self.line += 1;
        }
        if self.line < HEIGHT {
            return None;
        }
        if !bus.numbers().screen_disabled {
            bus.set_scan_line(HEIGHT);
            bus.set_lcd_status_mode(1);
            bus.compare_ly_to_lyc();
            bus.request_vblank();
            bus.set_window_line(0);
        }
        self.see(bus);
        let frame = (self.picture, self.read);
        *self = Screen::new(self.is_cgb);
        Some(frame)
    }

    /// A line of a screen that is on: what a line's modes tell the bus, and its pixels.
    fn row<B: Bus>(&mut self, bus: &mut B) -> [u16; WIDTH] {
        bus.set_scan_line(self.line);
        bus.set_lcd_status_mode(2);
        bus.compare_ly_to_lyc();
        bus.set_lcd_status_mode(3);
        let (row, window) = pixels(bus, self.is_cgb, self.line);
        let numbers = bus.numbers();
        if window {
            bus.set_window_line(numbers.window_line + 1);
        }
        bus.set_cycles_counter(numbers.cycles_counter + LINE_CYCLES);
        bus.set_aux_cycles_counter(i32::from(self.line));
        bus.set_lcd_status_mode(0);
        if bus.is_hdma_enabled() {
            bus.do_hdma();
        }
        row
    }

    /// All that a frame's end shows beside the picture.
    fn see<B: Bus>(&mut self, bus: &B) {
        let n = bus.numbers();
        self.read.add_all(&[u8::from(n.screen_disabled), n.scan_line, n.irq48_signal, n.lcd_status_mode]);
        for number in [n.screen_enable_delay_cycles, n.cycles_counter, n.aux_cycles_counter, n.window_line] {
            self.read.add_all(&number.to_be_bytes());
        }
        self.read.add_all(&bus.oam());
        bus.colors().iter().for_each(|color| self.read.add_all(color));
        (0xFF40..=0xFF4B).for_each(|index| self.read.add(bus.read_byte(index)));
    }
}

/// A line of a screen that is off is white. The game turned it off; only the delay that the bus gave turns it on again.
fn wait<B: Bus>(bus: &mut B) -> [u16; WIDTH] {
    let delay = bus.numbers().screen_enable_delay_cycles;
    if delay > 0 {
        bus.set_screen_enable_delay_cycles((delay - LINE_CYCLES / 4).max(0));
        if delay <= LINE_CYCLES / 4 {
            bus.set_screen_disabled(false);
            bus.set_window_line(0);
        }
    }
    [0x7FFF; WIDTH]
}

struct Dot {
    value: u8,
    color: u16,
    first: bool,
}

/// The line's pixels, and whether the window is among them.
fn pixels<B: Bus>(bus: &B, is_cgb: bool, y: u8) -> ([u16; WIDTH], bool) {
    let control = bus.read_byte(0xFF40);
    let [scroll_y, scroll_x] = [bus.read_byte(0xFF42), bus.read_byte(0xFF43)];
    let window_y = bus.read_byte(0xFF4A);
    let window_x = usize::from(bus.read_byte(0xFF4B));
    let window_line = bus.numbers().window_line;
    let colors = bus.colors();
    let sprites = on_line(&bus.oam(), control, is_cgb, y);
    let mut row = [0; WIDTH];
    let mut window = false;
    for (x, pixel) in row.iter_mut().enumerate() {
        let in_window = control & 0x20 != 0 && y >= window_y && x + 7 >= window_x;
        window |= in_window;
        let behind = if in_window {
            background(bus, control, is_cgb, &colors, control & 0x40 != 0, x + 7 - window_x, window_line as usize % 256)
        } else {
            background(bus, control, is_cgb, &colors, control & 0x08 != 0, (x + usize::from(scroll_x)) % 256, (usize::from(y) + usize::from(scroll_y)) % 256)
        };
        let shown = sprites.iter().find_map(|sprite| sprite_dot(bus, control, is_cgb, &colors, *sprite, x, y));
        *pixel = match shown {
            Some(dot) if behind.value == 0 || (is_cgb && control & 1 == 0) || !(behind.first || dot.first) => dot.color,
            _ => behind.color,
        };
    }
    (row, window)
}

/// The first ten sprites on a line, the one in front first.
fn on_line(oam: &[u8; 160], control: u8, is_cgb: bool, y: u8) -> Vec<[u8; 4]> {
    if control & 2 == 0 {
        return Vec::new();
    }
    let height = height(control);
    let covers = |sprite: &[u8; 4]| (sprite[0]..sprite[0].saturating_add(height)).contains(&(y + 16));
    let sprites = oam.chunks_exact(4).map(|sprite| [sprite[0], sprite[1], sprite[2], sprite[3]]);
    let mut sprites: Vec<_> = sprites.filter(covers).take(10).collect();
    if !is_cgb {
        sprites.sort_by_key(|sprite| sprite[1]);
    }
    sprites
}

fn height(control: u8) -> u8 {
    if control & 4 != 0 {
        16
    } else {
        8
    }
}

/// Two bits of a tile's row.
fn bits<B: Bus>(bus: &B, address: u16, bank: u8, column: usize) -> u8 {
    let [low, high] = [bus.read_cgb_lcd_ram(address, bank), bus.read_cgb_lcd_ram(address + 1, bank)];
    (low >> (7 - column) & 1) | (high >> (7 - column) & 1) << 1
}

fn packed(color: [u8; 3]) -> u16 {
    u16::from(color[0]) | u16::from(color[1]) << 5 | u16::from(color[2]) << 10
}

/// A monochrome palette's shade, as a grey.
fn grey(palette: u8, value: u8) -> u16 {
    let shade = [31, 21, 10, 0][usize::from(palette >> (2 * value) & 3)];
    packed([shade; 3])
}

fn background<B: Bus>(bus: &B, control: u8, is_cgb: bool, colors: &[[u8; 3]; 64], second: bool, x: usize, y: usize) -> Dot {
    let map = if second { 0x9C00 } else { 0x9800 };
    let place = map + (y / 8 * 32 + x / 8) as u16;
    let tile = bus.read_cgb_lcd_ram(place, 0);
    let attributes = if is_cgb { bus.read_cgb_lcd_ram(place, 1) } else { 0 };
    let tiles = if control & 0x10 != 0 { 0x8000 + u16::from(tile) * 16 } else { 0x8800 + u16::from(tile ^ 0x80) * 16 };
    let row = if attributes & 0x40 != 0 { 7 - y % 8 } else { y % 8 } as u16;
    let column = if attributes & 0x20 != 0 { 7 - x % 8 } else { x % 8 };
    let value = bits(bus, tiles + row * 2, attributes >> 3 & 1, column);
    if is_cgb {
        let color = packed(colors[usize::from(attributes & 7) * 4 + usize::from(value)]);
        return Dot { value, color, first: attributes & 0x80 != 0 };
    }
    let value = if control & 1 != 0 { value } else { 0 };
    let palette = if control & 1 != 0 { bus.read_byte(0xFF47) } else { 0 };
    Dot { value, color: grey(palette, value), first: false }
}

/// A sprite's dot at a place, if it has one there.
fn sprite_dot<B: Bus>(bus: &B, control: u8, is_cgb: bool, colors: &[[u8; 3]; 64], sprite: [u8; 4], x: usize, y: u8) -> Option<Dot> {
    let [top, left, tile, attributes] = sprite;
    let column = (x + 8).checked_sub(usize::from(left)).filter(|&column| column < 8)?;
    let height = height(control);
    let line = y + 16 - top;
    let row = if attributes & 0x40 != 0 { height - 1 - line } else { line };
    let column = if attributes & 0x20 != 0 { 7 - column } else { column };
    let tile = if height == 16 { tile & 0xFE } else { tile };
    let bank = if is_cgb { attributes >> 3 & 1 } else { 0 };
    let value = bits(bus, 0x8000 + u16::from(tile) * 16 + u16::from(row) * 2, bank, column);
    if value == 0 {
        return None;
    }
    let color = if is_cgb {
        packed(colors[32 + usize::from(attributes & 7) * 4 + usize::from(value)])
    } else {
        grey(bus.read_byte(0xFF48 + u16::from(attributes >> 4 & 1)), value)
    };
    Some(Dot { value, color, first: attributes & 0x80 != 0 })
}
