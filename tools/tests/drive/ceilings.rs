//! Ceilings, compared with the second program and with the page about them.

use crate::program::drive;
use reference::{ceiling::ceiling, potential::at_begin};

/// The rows of the table in docs/CEILINGS.md: tasks, ceiling, proved, exact longest, longest found.
fn rows() -> Vec<Vec<String>> {
    let page = std::fs::read_to_string("../docs/CEILINGS.md").expect("the page");
    let cells = |line: &str| {
        line.split('|')
            .map(|cell| cell.trim().to_string())
            .collect::<Vec<_>>()
    };
    let rows = page.lines().filter(|line| line.starts_with("| ")).map(cells);
    rows.filter(|row| row.len() == 8 && row[1].len() == 1 && row[1] != "n")
        .collect()
}

/// The numbers at the beginning of the lines that are printed.
fn printed(tasks: usize) -> Vec<String> {
    let text = drive(&["ceiling", &tasks.to_string()], b"").text();
    let first = |line: &str| line.split_whitespace().next().expect("a word").to_string();
    text.lines().skip(1).map(first).collect()
}

fn plain(number: &str) -> u32 {
    number.replace(',', "").parse().expect("a number")
}

#[test]
fn ceilings_are_those_of_the_page_and_of_the_second_program() {
    let rows = rows();
    assert_eq!(rows.len(), 8);
    for (tasks, row) in (1..=8).zip(&rows) {
        let printed = printed(tasks);
        assert_eq!(
            [&printed[0], &printed[1], &printed[2]],
            [&row[2], &row[3], &row[5]]
        );
        assert_eq!(plain(&printed[0]), ceiling(tasks).expect("a ceiling"));
        assert_eq!(plain(&printed[1]), at_begin(tasks));
        let text = drive(&["ceiling", &tasks.to_string()], b"").text();
        assert_eq!(text.contains("the longest there is"), row[4] == row[5]);
    }
}

#[test]
fn another_number_of_tasks_is_refused() {
    for tasks in ["0", "9", "65536"] {
        let said = drive(&["ceiling", tasks], b"").failure();
        assert_eq!(said, "drive: refused with 5: the number of tasks is not 1 to 8\n");
    }
    for word in ["", "x", "-1", "1.5"] {
        let said = drive(&["ceiling", word], b"").failure();
        assert_eq!(said, format!("drive: '{word}' is no number of tasks\n"));
    }
}

#[test]
fn the_ceilings_are_told_in_words() {
    for (tasks, row) in (1..=8).zip(rows()) {
        let subject = match tasks {
            1 => "of one task that runs alone".to_string(),
            _ => format!("of one of {tasks} tasks, whatever the others do"),
        };
        let how = match tasks {
            1 | 2 => {
                "the longest there is: all schedules on three tables; for other tables argued, not proved"
            }
            3 => "the longest there is: explored, and for schedules and tables left out argued, not proved",
            _ => "the longest known: a search found it, and a longer one may exist",
        };
        let (ceiling, proved, longest) = (&row[2], &row[3], &row[5]);
        let expected = format!(
            "The own steps of an operation {subject}:\n\
             {ceiling:>9}  the ceiling of the contract; a count never passes it\n\
             {proved:>9}  proved for every table and every list of calls: no operation takes more\n\
             {longest:>9}  {how}\n"
        );
        assert_eq!(drive(&["ceiling", &tasks.to_string()], b"").text(), expected);
    }
}

/// A text of the chart, with its place from the left and from the top.
fn text_at(line: &str) -> Option<(f64, f64, &str)> {
    let number = |name: &str| line.split_once(name)?.1.split('\'').next()?.parse::<f64>().ok();
    let text = line.strip_suffix("</text>")?.rsplit('>').next()?;
    Some((number(" x='")?, number(" y='")?, text))
}

/// Where the chart must have a number of steps, by the numbers at its left side.
fn height(chart: &str, steps: u32) -> f64 {
    let axis = chart
        .lines()
        .filter(|line| line.contains("font-size='11'"))
        .filter_map(text_at);
    let axis: Vec<(f64, f64)> = axis
        .map(|(_, y, text)| (f64::from(plain(text)).log10(), y - 4.0))
        .collect();
    assert_eq!(
        axis.iter().map(|(power, _)| *power as u32).collect::<Vec<_>>(),
        [1, 2, 3, 4, 5, 6]
    );
    let ((low, bottom), (high, top)) = (axis[0], axis[5]);
    bottom + (top - bottom) * (f64::from(steps).log10() - low) / (high - low)
}

/// The points of each line of the chart.
fn lines(chart: &str) -> Vec<Vec<(f64, f64)>> {
    let lines = chart
        .lines()
        .filter_map(|line| line.split_once("points='")?.1.split('\'').next());
    let point = |point: &str| {
        point
            .split_once(',')
            .map(|(x, y)| (x.parse().expect("a place"), y.parse().expect("a place")))
    };
    lines
        .map(|line| line.split(' ').filter_map(point).collect())
        .collect()
}

#[test]
fn the_chart_has_every_number_at_its_place() {
    let chart = drive(&["ceiling", "--chart"], b"").text();
    let texts: Vec<(f64, f64, &str)> = chart.lines().filter_map(text_at).collect();
    let lines = lines(&chart);
    let names = ["ceiling of the contract", "proved bound", "longest known"];
    for ((line, name), column) in lines.iter().zip(names).zip([2, 3, 5]) {
        assert_eq!(line.len(), 8);
        for (row, (x, y)) in rows().iter().zip(line) {
            assert!(
                (y - height(&chart, plain(&row[column]))).abs() < 0.2,
                "{name} {row:?}"
            );
            let number = |text: &&(f64, f64, &str)| {
                text.2 == row[column] && (text.0 - x).abs() < 10.0 && (text.1 - y).abs() < 20.0
            };
            let tasks = |text: &&(f64, f64, &str)| text.2 == row[1] && (text.0 - x).abs() < 0.2;
            assert!(
                texts.iter().any(|text| number(&text)) && texts.iter().any(|text| tasks(&text)),
                "{name} {row:?}"
            );
        }
        let (_, last) = line[7];
        assert!(
            texts
                .iter()
                .any(|(_, y, text)| *text == name && (y - last).abs() < 5.0),
            "{name}"
        );
    }
    assert_eq!(lines.len(), 3);
}
