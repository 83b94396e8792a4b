//! The files in `contrib/`, tried by the programs that they are for.

use crate::metrics::{label_values, metric_names, real_metrics, Metrics};
use crate::network::in_network;
use programs::{Program, BASH, JQ, NFT, PROMTOOL, SHELLCHECK};
use std::fs::{self, File};
use std::path::PathBuf;
use std::process::Output;

const ALERTS: &str = "prometheus-alerts.yml";
const ALERTS_TEST: &str = "prometheus-alerts-test.yml";
const DASHBOARD: &str = "grafana-dashboard.json";
pub const FIREWALL: &str = "nidhaaguf.nft";
const HEALTH_CHECK: &str = "health-check";

fn path(name: &str) -> String {
    format!("{}/../../contrib/{name}", env!("CARGO_MANIFEST_DIR"))
}

pub fn text(name: &str) -> String {
    fs::read_to_string(path(name)).unwrap()
}

/// What a program says of a file, which it must take.
fn must_take(program: Program, words: &[&str]) -> String {
    let Output { status, stdout, stderr } = program.run(words);
    let told = String::from_utf8([stdout, stderr].concat()).unwrap();
    assert!(status.success(), "{} {words:?}: {told}", program.name());
    told
}

/// A file for a test, removed in the end.
pub struct Scratch(PathBuf);

impl Scratch {
    pub fn new(name: &str, text: &str) -> Scratch {
        let path = PathBuf::from(env!("CARGO_TARGET_TMPDIR"))
            .join(format!("{}-{name}", std::process::id()));
        fs::write(&path, text).unwrap();
        Scratch(path)
    }

    pub fn name(&self) -> &str {
        self.0.to_str().unwrap()
    }
}

impl Drop for Scratch {
    fn drop(&mut self) {
        let _ = fs::remove_file(&self.0);
    }
}

/// The queries of the dashboard's panels.
fn queries() -> Vec<String> {
    let told = must_take(JQ, &["-r", ".panels[].targets[].expr", &path(DASHBOARD)]);
    told.lines().map(str::to_string).collect()
}

#[test]
fn promtool_takes_the_alerts_and_their_tests() {
    must_take(PROMTOOL, &["check", "rules", &path(ALERTS)]);
    must_take(PROMTOOL, &["test", "rules", &path(ALERTS_TEST)]);
}

#[test]
fn each_alert_is_tried_in_a_case_where_it_comes_and_in_one_where_it_does_not() {
    let (rules, tests) = (text(ALERTS), text(ALERTS_TEST));
    let alerts: Vec<&str> =
        rules.lines().filter_map(|line| line.trim().strip_prefix("- alert: ")).collect();
    assert!(alerts.len() >= 6, "{alerts:?}");
    for alert in alerts {
        let cases: Vec<&str> = tests
            .split("- eval_time: ")
            .filter(|case| case.contains(&format!("alertname: {alert}\n")))
            .collect();
        let comes = cases.iter().filter(|case| case.contains("exp_alerts:")).count();
        assert!(comes > 0 && comes < cases.len(), "{alert}: {comes} of {}", cases.len());
    }
}

#[test]
fn promtool_takes_the_queries_of_the_dashboard() {
    let queries = queries();
    assert!(queries.len() >= 8, "{queries:?}");
    let rule = |(number, query): (usize, &String)| {
        let query = query.replace("$__rate_interval", "5m").replace('\'', "''");
        format!("  - record: dashboard:query:{number}\n    expr: '{query}'\n")
    };
    let rules: String = queries.iter().enumerate().map(rule).collect();
    let file =
        Scratch::new("queries.yml", &format!("groups:\n- name: dashboard\n  rules:\n{rules}"));
    must_take(PROMTOOL, &["check", "rules", file.name()]);
}

#[test]
fn promtool_takes_the_metrics() {
    in_network("metrics", |network| {
        let file = Scratch::new("metrics.prom", &real_metrics(network));
        let mut command = PROMTOOL.command();
        let checked = command
            .args(["check", "metrics"])
            .stdin(File::open(&file.0).unwrap())
            .output()
            .unwrap();
        let told = String::from_utf8([checked.stdout, checked.stderr].concat()).unwrap();
        assert!(checked.status.success() && told.is_empty(), "{told}");
    });
}

#[test]
fn alerts_and_dashboard_ask_for_what_the_daemon_tells() {
    in_network("names", |network| {
        let told = Metrics::read(&real_metrics(network));
        for (name, text) in [ALERTS, ALERTS_TEST, DASHBOARD].map(|name| (name, text(name))) {
            let names = metric_names(&text);
            assert!(names.len() >= 5, "{name}: {names:?}");
            names.iter().for_each(|metric| assert!(told.has(metric), "{name} asks for {metric}"));
            for (label, value) in label_values(&text) {
                assert!(told.has_label(&label, &value), "{name} asks for {label}={value:?}");
            }
        }
    });
}

#[test]
fn the_page_of_operations_has_just_the_metrics_that_the_daemon_tells() {
    let page = fs::read_to_string(path("../docs/OPERATIONS.md")).unwrap();
    let mut named = metric_names(&page);
    // an archive has such a name, too
    named.remove("nidhaaguf_serve");
    in_network("page", |network| {
        let told = Metrics::read(&real_metrics(network));
        assert_eq!(&named, told.names());
    });
}

#[test]
fn nft_takes_the_firewall() {
    in_network("firewall", |network| {
        network.must("director", || NFT.run(&["-c", "-f", &path(FIREWALL)]));
        // loaded twice it is there once
        let load = || network.must("director", || NFT.run(&["-f", &path(FIREWALL)]));
        let list = || network.must("director", || NFT.run(&["list", "ruleset"]));
        load();
        let once = list();
        load();
        assert_eq!(list(), once);
        assert_eq!(once.matches("ct state invalid").count(), 2, "{once}");
    });
}

#[test]
fn shellcheck_takes_the_health_check() {
    let told = must_take(SHELLCHECK, &[&path(HEALTH_CHECK)]);
    assert_eq!(told, "");
}

#[test]
fn the_health_check_tells_wrong_usage() {
    let good = Scratch::new("health.conf", "server 10.1.0.5:6432 weight 1");
    let config = ["--config", good.name()];
    for (words, wanted) in [
        (&[][..], "--config FILE is missing"),
        (&["--config"], "--config: expected a value after it"),
        (&["--weight", "0"], "--weight: there is no such flag"),
        (&["--check", "ping"], "--check: expected tcp or postgres, got 'ping'"),
        (&["--failures", "0"], "--failures: expected a number from 1, got '0'"),
        (&["--interval", "soon"], "--interval: expected seconds, got 'soon'"),
    ] {
        let words = if words.len() == 2 { [words, &config].concat() } else { words.to_vec() };
        let output = BASH.run(&[&[path(HEALTH_CHECK).as_str()], &words[..]].concat());
        let told = String::from_utf8(output.stderr).unwrap();
        assert_eq!(output.status.code(), Some(2), "{words:?}: {told}");
        assert!(told.starts_with(&format!("health-check: {wanted}\n")), "{words:?}: {told}");
        assert!(told.contains("--successes N"), "{told}");
    }
    let told = must_take(BASH, &[&path(HEALTH_CHECK), "--help"]);
    assert!(told.contains("--config FILE") && told.contains("--socket PATH"), "{told}");
}
