//! Two flows of one job: how far apart their images are (request F-5).

use relief_reference::problem::{squared_distance, widened, within_gaps};

/// The images of two flows of one job beside the bound of their slacks, as a label. An error where
/// they are further apart.
pub fn compare_with_bound(images: [&[i32]; 2], slacks: [u64; 2]) -> Result<String, String> {
    let [one, other] = images.map(widened);
    let gaps = slacks.map(i128::from);
    let (distance, sum) = (squared_distance(&one, &other), gaps.iter().sum());
    if !within_gaps([&one, &other], gaps) {
        return Err(format!(
            "the images of two flows have squared distance {distance}, with slacks {slacks:?}"
        ));
    }
    Ok(match (distance, sum) {
        (0, 0) => "equal with slack 0",
        (0, _) => "equal with slack above 0",
        _ if 2 * distance == sum => "at the bound",
        _ => "nearer than the bound",
    }
    .to_string())
}
