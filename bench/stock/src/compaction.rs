//! A run: reads an image, and writes it without its garbage.

use crate::arguments::Arguments;
use crate::defects::first_defect;
use crate::fault::Fault;
use crate::forward::Forward;
use crate::image::Image;
use crate::input::read_file;
use crate::marking::mark;
use crate::output::write_image;
use crate::regions::Regions;
use crate::slide::slide;
use crate::stages::Stages;

/// The most workers.
const MOST_WORKERS: usize = 64;

/// Compacts the image in one file into another, and returns the times of the stages. After a fault
/// other than `WriteFailed`, the output is unchanged.
pub fn compact(arguments: &Arguments) -> Result<Stages, Fault> {
    let workers = arguments.workers;
    if !(1..=MOST_WORKERS).contains(&workers) {
        return Err(Fault::BadWorkers);
    }
    let mut stages = Stages::start();
    let file = read_file(&arguments.input)?;
    stages.end("read");
    let image = Image::of(&file)?;
    let heap = &image.heap;
    stages.end("index");
    let regions = Regions::of(heap);
    stages.end("cut");
    let marked = mark(&image, &regions, workers);
    stages.end("mark");
    if let Some(fault) = first_defect(heap, &marked.marks) {
        return Err(fault);
    }
    stages.end("check");
    let forward = Forward::build(heap, &regions, &marked);
    stages.end("place");
    let pieces = slide(heap, &regions, &forward, workers);
    stages.end("slide");
    // the root is always marked, so it has a new address
    let special = forward.place(image.special).unwrap_or_default();
    write_image(&arguments.output, &image, special, &pieces)?;
    stages.end("write");
    Ok(stages)
}
