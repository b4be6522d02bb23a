//! Finds, configures and fills a DA7280 over an async I2C bus that fails now and then, and plays;
//! then sets up a custom waveform.
//!
//! `cargo run --example async_bus`
//!
//! The first part is what firmware has: the trait is `embedded-hal-async`'s `I2c`. The second is a
//! simulated chip, the third an executor of a few lines.

use core::future::poll_fn;
use core::pin::pin;
use core::task::{Context, Poll};
use embedded_hal_async::i2c::{Error as _, ErrorKind, ErrorType, I2c, NoAcknowledgeSource};
use std::sync::Arc;
use std::sync::atomic::{AtomicU32, Ordering};
use std::task::Wake;
use yambelugo::*;

/// What the driver hands through when the bus fails.
fn code(kind: ErrorKind) -> u8 {
    match kind {
        ErrorKind::Bus => 1,
        ErrorKind::ArbitrationLoss => 2,
        ErrorKind::NoAcknowledge(_) => 3,
        _ => 255,
    }
}

/// Makes the exchanges of a session on the bus. Lent, the session stands once in the task.
async fn run(
    i2c: &mut impl I2c,
    session: &mut Session<'_>,
    buffer: &mut [u8],
) -> Result<(), Refusal> {
    while let Some(exchange) = session.pending() {
        let (address, mut byte) = (exchange.address(), [0]);
        let made = match exchange.wanted() {
            true => i2c.write_read(address, exchange.bytes(), &mut byte).await,
            false => i2c.write(address, exchange.bytes()).await,
        };
        let result = made.map(|()| byte[0]).map_err(|error| code(error.kind()));
        session.answer(exchange.reply(result), buffer)?;
    }
    Ok(())
}

/// Runs an operation and, when the bus fails, starts it anew: at most three times in all. How many
/// exchanges the last try made.
async fn retried(
    i2c: &mut impl I2c,
    driver: &mut DA728x,
    start: impl Fn(&mut DA728x) -> Started<'_>,
) -> Result<u8, Error> {
    let mut tries = 1;
    loop {
        let mut session = start(driver)?;
        match run(i2c, &mut session, &mut []).await {
            Ok(()) => return Ok(session.made()),
            Err(Refusal { error: Error::I2c(code), made, .. }) if tries < 3 => {
                println!("  the bus failed with code {code} at exchange {made}: once more");
            }
            Err(refusal) => return Err(refusal.error),
        }
        tries += 1;
    }
}

const ADDRESS: u8 = 0x4A;

const ACTUATOR: ActuatorConfig = ActuatorConfig {
    actuator_type: ActuatorType::LRA,
    nominal_max_mV: 2500,
    absolute_max_mV: 3500,
    max_current_mA: 165,
    impedance_mOhm: 8000,
    inductance_uH: 50,
    frequency_Hz: 170,
    pid_Kp_Ki: None,
};

const DEVICE: DeviceConfig = DeviceConfig {
    operation_mode: OperationMode::RTWM_MODE,
    driving_mode: DrivingMode::FREQUENCY_TRACK,
    gpi_triggers: [None; 3],
    acceleration: true,
    rapid_stop: false,
};

/// Two snippets, and a sequence that plays both.
fn image() -> Result<[u8; IMAGE], Error> {
    let calls = [
        Call::Ramp(3, 10),
        Call::Step(1, 0),
        Call::AddSnippet,
        Call::Step(2, 15),
        Call::AddSnippet,
        Call::FrameNew(1),
        Call::AddFrame,
        Call::FrameNew(2),
        Call::LoopCount(2),
        Call::AddFrame,
        Call::AddSequence,
    ];
    let mut image = [0; IMAGE];
    assemble_strict(calls.map(Call::encode).as_flattened(), &mut image)?;
    assert_eq!(image[..12], [2, 1, 6, 7, 10, 0xAA, 0x00, 0x1F, 0x01, 0x02, 0x90, 0]);
    Ok(image)
}

/// Uploads the image, and reads the memory back. No sequence can be selected or played before.
async fn fill(chip: &mut Chip, driver: &mut DA728x, image: &[u8]) -> Result<(), Error> {
    println!("upload, of which the fourth exchange is lost:");
    assert_eq!(driver.play_sequence(0, 2), Err(Error::MissingSequence));
    chip.fail(4, ErrorKind::ArbitrationLoss);
    let made = retried(chip, driver, |it| it.upload_waveform_memory(image, true)).await?;
    assert_eq!((made, chip.transfers), (6, 4 + 6));
    assert_eq!(chip.registers[0x84..0xE8], *image);
    assert_eq!(usize::from(driver.sequences()), read_counts(image)?.1);
    println!("  uploaded");

    println!("read back:");
    let mut memory = [0; IMAGE];
    let mut session = driver.read_waveform_memory(IMAGE, memory.len());
    run(chip, &mut session, &mut memory).await?;
    assert_eq!((session.read_count(), session.made()), (Some(IMAGE), 100));
    assert_eq!(memory, *image);
    println!("  {} snippets, {} sequence", read_counts(&memory)?.0, read_counts(&memory)?.1);
    Ok(())
}

/// What a unit does when it is switched on.
async fn switch_on(chip: &mut Chip) -> Result<(), Error> {
    println!("new, for a DA7281:");
    let mut session = DA728x::new(ADDRESS, Variant::DA7281);
    let refused = run(chip, &mut session, &mut []).await.unwrap_err();
    assert_eq!((refused.error.number(), refused.made), (16, 1));
    assert_eq!(session.found(), None);
    println!("  refused with {}: {refused}", refused.error.number());

    println!("new, for a DA7280:");
    let mut session = DA728x::new(ADDRESS, Variant::DA7280);
    run(chip, &mut session, &mut []).await?;
    let mut driver = session.found().expect("new makes a driver");
    println!("  found");

    println!("configure, of which the fifth exchange is not acknowledged:");
    assert_eq!(driver.enable(), Err(Error::NotConfigured));
    chip.fail(5, ErrorKind::NoAcknowledge(NoAcknowledgeSource::Address));
    let made = retried(chip, &mut driver, |it| it.configure(ACTUATOR, DEVICE)).await?;
    assert_eq!((made, chip.transfers), (14, 5 + 14));
    assert_eq!(chip.registers[0x0C..0x0F], [106, 149, 18]); // ACTUATOR1, 2 and 3
    assert_eq!(driver.as_bytes()[3..21], ACTUATOR.encode());
    println!("  configured");

    fill(chip, &mut driver, &image()?).await?;

    println!("play sequence 1, which the image has not, then sequence 0:");
    retried(chip, &mut driver, |it| it.enable()).await?;
    let refused = retried(chip, &mut driver, |it| it.play_sequence(1, 2)).await.unwrap_err();
    assert_eq!(refused, Error::MissingSequence);
    println!("  refused with {}: {refused}", refused.number());
    retried(chip, &mut driver, |it| it.play_sequence(0, 2)).await?;
    assert_eq!((chip.registers[0x28], chip.registers[0x22]), (0x20, 0x13)); // SEQ_CTL2, TOP_CTL1
    println!("  started, two loops");

    wave(chip, &mut driver).await
}

/// A custom waveform: settings for it, then its three drive points.
async fn wave(chip: &mut Chip, driver: &mut DA728x) -> Result<(), Error> {
    const POINTS: [u8; 3] = [0x28, 0x5F, 0x80]; // made up
    assert_eq!(driver.set_custom_drive_waveform(POINTS), Err(Error::WrongMode));

    println!("configure for a custom waveform, and its points, of which the second is lost:");
    retried(chip, driver, |it| it.disable()).await?;
    let driving_mode = DrivingMode::CUSTOM_WAVEFORM;
    let device = DeviceConfig { driving_mode, acceleration: false, ..DEVICE };
    retried(chip, driver, |it| it.configure(ACTUATOR, device)).await?;
    chip.fail(2, ErrorKind::ArbitrationLoss);
    let made = retried(chip, driver, |it| it.set_custom_drive_waveform(POINTS)).await?;
    assert_eq!((made, chip.transfers), (3, 2 + 3));
    assert_eq!(chip.registers[0x25..0x28], POINTS); // SWG_C1, SWG_C2 and SWG_C3
    retried(chip, driver, |it| it.enable()).await?;
    println!("  written");
    Ok(())
}

/// A simulated chip on a bus of its own: every transfer takes a while.
struct Chip {
    registers: [u8; 256],
    /// Since the failure was set.
    transfers: u32,
    fails: Option<(u32, ErrorKind)>,
}

impl Chip {
    fn new() -> Self {
        let mut registers = [0; 256];
        registers[0x00] = 0xBA;
        registers[0x84..0xE8].fill(0xFF);
        Self { registers, transfers: 0, fails: None }
    }

    /// From here on, the transfer of this number fails.
    fn fail(&mut self, transfer: u32, kind: ErrorKind) {
        (self.transfers, self.fails) = (0, Some((transfer, kind)));
    }

    /// A transfer: it fails, or its bytes are written to the registers from the first on. The
    /// waveform memory takes bytes only while bit 7 of MEM_CTL2 is set.
    async fn transfer(&mut self, address: u8, bytes: &[u8]) -> Result<u8, ErrorKind> {
        wire().await;
        self.transfers += 1;
        if address != ADDRESS {
            return Err(ErrorKind::NoAcknowledge(NoAcknowledgeSource::Address));
        }
        if let Some((transfer, kind)) = self.fails
            && transfer == self.transfers
        {
            return Err(kind);
        }
        let (first, rest) = bytes.split_first().expect("a register");
        for (at, byte) in (*first..).zip(rest) {
            if !(0x84..0xE8).contains(&at) || self.registers[0x2D] & 0x80 != 0 {
                self.registers[usize::from(at)] = *byte;
            }
        }
        Ok(self.registers[usize::from(*first)])
    }
}

/// The time on the wire: the task waits, and is woken.
async fn wire() {
    let mut waited = false;
    poll_fn(|context| {
        if waited {
            return Poll::Ready(());
        }
        waited = true;
        context.waker().wake_by_ref();
        Poll::Pending
    })
    .await
}

impl ErrorType for Chip {
    type Error = ErrorKind;
}

impl I2c for Chip {
    async fn write(&mut self, address: u8, bytes: &[u8]) -> Result<(), ErrorKind> {
        self.transfer(address, bytes).await.map(|_| ())
    }

    async fn write_read(
        &mut self,
        address: u8,
        bytes: &[u8],
        read: &mut [u8],
    ) -> Result<(), ErrorKind> {
        read.fill(self.transfer(address, bytes).await?);
        Ok(())
    }
}

/// Counts how often the task is woken.
struct Wakes(AtomicU32);

impl Wake for Wakes {
    fn wake(self: Arc<Self>) {
        self.0.fetch_add(1, Ordering::Relaxed);
    }
}

/// Runs a task, polled again whenever it was woken; what it answers, and how often it had to wait.
fn block_on<T>(task: impl Future<Output = T>) -> (T, u32) {
    let mut task = pin!(task);
    let wakes = Arc::new(Wakes(AtomicU32::new(0)));
    let waker = wakes.clone().into();
    let mut waits = 0;
    loop {
        if let Poll::Ready(value) = task.as_mut().poll(&mut Context::from_waker(&waker)) {
            return (value, waits);
        }
        waits += 1;
        assert_eq!(wakes.0.load(Ordering::Relaxed), waits, "a task that waits has to be woken");
    }
}

fn main() {
    let mut chip = Chip::new();
    let (result, waits) = block_on(switch_on(&mut chip));
    assert_eq!(result, Ok(()));
    // Every transfer made the task wait once, with a session held: two of new, configure and upload
    // with a failure each, the memory read back, enable and play; disable, configure again, the
    // points with a failure, enable.
    assert_eq!(waits, 2 + (5 + 14) + (4 + 6) + 100 + 1 + 3 + 2 + 18 + (2 + 3) + 1);

    println!("memory:");
    let task = async |chip: &mut Chip| {
        let mut session = DA728x::new(ADDRESS, Variant::DA7280);
        run(chip, &mut session, &mut []).await
    };
    let size = size_of_val(&task(&mut chip));
    assert_eq!((size_of::<Session>(), size_of::<DA728x>()), (320, 38));
    println!("  a session is 320 bytes, a task that runs one over this bus {size}");
    assert!(size < 1024, "a task of {size} bytes");
}

#[test]
fn runs() {
    main();
}
