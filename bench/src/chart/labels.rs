//! Labels at the ends of lines, moved apart where they would overlap.

/// Where labels stand whose lines end at these heights: in the same order from top to bottom, at least `apart` from one another, near
/// their lines, and none below `lowest`.
pub fn placed(ends: &[f64], apart: f64, lowest: f64) -> Vec<f64> {
    let mut order: Vec<usize> = (0..ends.len()).collect();
    order.sort_by(|&one, &two| ends[one].total_cmp(&ends[two]));
    let mut groups: Vec<Group> = Vec::new();
    for &index in &order {
        let mut group = Group {
            sum: ends[index],
            count: 1,
        };
        while let Some(above) = groups.pop_if(|above| above.bottom(apart) > group.top(apart)) {
            group.sum += above.sum;
            group.count += above.count;
        }
        groups.push(group);
    }
    let mut places = vec![0.0; ends.len()];
    let heights: Vec<f64> = groups
        .iter()
        .flat_map(|group| group.heights(apart))
        .collect();
    let mut floor = lowest;
    for (index, height) in order.into_iter().zip(heights).rev() {
        places[index] = height.min(floor);
        floor = places[index] - apart;
    }
    places
}

/// Labels that stand one below the other, around the middle of their lines.
struct Group {
    sum: f64,
    count: usize,
}

impl Group {
    fn top(&self, apart: f64) -> f64 {
        (self.sum - self.count as f64 * self.count as f64 * apart / 2.0) / self.count as f64
    }

    fn bottom(&self, apart: f64) -> f64 {
        self.top(apart) + self.count as f64 * apart
    }

    fn heights(&self, apart: f64) -> Vec<f64> {
        let first = self.top(apart) + apart / 2.0;
        (0..self.count)
            .map(|place| first + place as f64 * apart)
            .collect()
    }
}

#[cfg(test)]
mod tests {
    use super::placed;

    #[test]
    fn labels_that_are_apart_stay() {
        assert_eq!(
            placed(&[100.0, 10.0, 50.0], 12.0, 200.0),
            [100.0, 10.0, 50.0]
        );
    }

    #[test]
    fn labels_that_overlap_move_apart() {
        assert_eq!(placed(&[50.0, 50.0], 12.0, 200.0), [44.0, 56.0]);
        let crowd = [10.0, 11.0, 12.0, 13.0, 60.0, 61.0, 9.0];
        let mut places = placed(&crowd, 12.0, 62.0);
        places.sort_by(f64::total_cmp);
        assert!(places.windows(2).all(|pair| pair[1] - pair[0] > 11.99));
        assert!(places[6] <= 62.0);
    }
}
