//! The pictures that the demo writes.
use crate::causes::Causes;
use crate::closeup;
use crate::draw;
use crate::filtered::Filtered;
use crate::layout::Layout;
use crate::planes::Y;
use crate::png::Image;
use std::path::Path;

/// A picture, the name of its file and what it shows.
pub struct Shown {
    pub name: &'static str,
    pub shows: String,
    image: Image,
}

fn shown(name: &'static str, shows: impl Into<String>, image: Image) -> Shown {
    Shown {
        name,
        shows: shows.into(),
        image,
    }
}

/// All of them: the picture in 4:2:0, and beside it chroma in 4:4:4; `isolated` is a region to mark.
pub fn pictures(layout: &Layout, isolated: &[u8], causes: &Causes, half: &Filtered, full: &Filtered) -> Vec<Shown> {
    let (before, after) = (&half.before, &half.outputs.planes);
    let [coded, filtered, clean] = [before, after, &half.clean].map(|planes| draw::picture(planes, half.format));
    let floes = closeup::row(&closeup::FLOES, &[&coded, &filtered, &clean]);
    let difference = format!(
        "after less before, amplified {} times, around mid grey; chroma shows as a tinge",
        draw::AMPLIFICATION
    );
    let enlarged = format!(
        "a part of the ice edge, enlarged {} times: before, after, clean",
        closeup::FLOES.zoom
    );
    let chroma = format!(
        "chroma alone of melt ponds and leads, amplified {} times, enlarged {} times: {} above, {} below",
        draw::CHROMA_AMPLIFICATION,
        closeup::PONDS.zoom,
        half.format.name(),
        full.format.name()
    );
    let classes = "classes of 4 x 4 blocks: grey none, green diagonal, orange straight; brighter is more active";
    let division = "slices tinted, tiles yellow, subpictures blue with the isolated one hatched, virtual boundaries dashed";
    let closed = "what closes the sides of each sample, by colour; the names are below";
    vec![
        shown("before.png", "the coded picture, in RGB by BT.709 from video range", coded),
        shown("after.png", "the same, filtered", filtered),
        shown("difference.png", difference, draw::difference(before, after, half.format)),
        shown("closeup.png", enlarged, floes),
        shown("chroma.png", chroma, closeup::chroma(&closeup::PONDS, &[half, full])),
        shown("classes.png", classes, draw::classes(&half.outputs.class_map)),
        shown("layout.png", division, draw::layout(layout, isolated, &before[Y])),
        shown("causes.png", closed, draw::causes(causes, &before[Y])),
    ]
}

/// Writes them into a folder, which is made when missing.
pub fn write(folder: &Path, pictures: &[Shown]) -> Result<(), String> {
    std::fs::create_dir_all(folder).map_err(|e| format!("cannot make the folder {}: {e}", folder.display()))?;
    for picture in pictures {
        let path = folder.join(picture.name);
        picture
            .image
            .write(&path)
            .map_err(|e| format!("cannot write {}: {e}", path.display()))?;
    }
    Ok(())
}
