// A plan as read from its file, and its text.

// The first line, and the activities in the order of their lines.
#[derive(Clone, Debug, PartialEq)]
pub struct Plan {
    pub horizon: i64,
    pub minute: i64,
    pub capacity: i64,
    pub floor: i64,
    pub first_charge: i64,
    pub rate: i64,
    pub handover: i64,
    pub engines: i64,
    pub peak: i64,
    pub volume: i64,
    pub heater: i64,
    pub activities: Vec<Activity>,
}

#[derive(Clone, Debug, PartialEq)]
pub struct Activity {
    pub id: i64,
    pub priority: i64,
    pub duration: i64,
    pub preferred: i64,
    pub windows: Vec<Window>,
    pub after: Vec<i64>,
    pub units: Vec<i64>,
    pub needs: Vec<(i64, i64)>,
    pub sets: Vec<(i64, i64)>,
    pub engines: i64,
    pub peak: i64,
    pub draw: i64,
    pub volume: i64,
    pub warm: i64,
}

// The starts `from` to `to`, of which `preferred` is wanted most.
#[derive(Clone, Copy, Debug, PartialEq)]
pub struct Window {
    pub from: i64,
    pub preferred: i64,
    pub to: i64,
}

impl Plan {
    // The activities' positions in the file, in scheduling order.
    pub fn order(&self) -> Vec<usize> {
        let mut order: Vec<usize> = (0..self.activities.len()).collect();
        order.sort_by_key(|&i| (self.activities[i].priority, i));
        order
    }

    // The last start of an activity.
    pub fn last_start(&self, activity: &Activity) -> i64 {
        self.horizon - activity.duration
    }

    // The file, each line a list of fields.
    pub fn fields(&self) -> Vec<Vec<String>> {
        let mut lines = vec![vec!["plan".to_string()]];
        for number in [
            self.horizon,
            self.minute,
            self.capacity,
            self.floor,
            self.first_charge,
            self.rate,
            self.handover,
            self.engines,
            self.peak,
            self.volume,
            self.heater,
        ] {
            lines[0].push(number.to_string());
        }
        lines.extend(self.activities.iter().map(Activity::fields));
        lines
    }

    pub fn bytes(&self) -> Vec<u8> {
        join(&self.fields())
    }
}

impl Activity {
    pub fn fields(&self) -> Vec<String> {
        vec![
            "act".to_string(),
            self.id.to_string(),
            self.priority.to_string(),
            self.duration.to_string(),
            self.preferred.to_string(),
            list(&self.windows, |w| format!("{}:{}:{}", w.from, w.preferred, w.to)),
            list(&self.after, |id| id.to_string()),
            list(&self.units, |unit| unit.to_string()),
            list(&self.needs, |need| format!("{}={}", need.0, need.1)),
            list(&self.sets, |set| format!("{}={}", set.0, set.1)),
            self.engines.to_string(),
            self.peak.to_string(),
            self.draw.to_string(),
            self.volume.to_string(),
            self.warm.to_string(),
        ]
    }
}

// Lines of fields as a file's bytes.
pub fn join(lines: &[Vec<String>]) -> Vec<u8> {
    let mut text = String::new();
    for line in lines {
        text += &line.join("\t");
        text.push('\n');
    }
    text.into_bytes()
}

fn list<T>(items: &[T], text: impl Fn(&T) -> String) -> String {
    if items.is_empty() {
        return "-".to_string();
    }
    items.iter().map(text).collect::<Vec<_>>().join(",")
}
