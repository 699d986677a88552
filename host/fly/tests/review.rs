//! The page of `review`: what is in it, and, where there is a Chromium, what it shows. That is driven over a pipe by its own protocol, with nothing but std.

use fosavalo::{Log, LogView, Record, MOST_RECORDS};
use std::io::{BufRead, BufReader, Write};
use std::path::{Path, PathBuf};
use std::process::{Child, ChildStdin, ChildStdout, Command, Stdio};
use std::sync::{PoisonError, RwLock, RwLockReadGuard, RwLockWriteGuard};
use std::time::{Duration, Instant};

/// Browsers that are only looked at run beside each other, and one that is timed runs alone.
static TURNS: RwLock<()> = RwLock::new(());

enum Turn {
    Beside(#[allow(dead_code)] RwLockReadGuard<'static, ()>),
    Alone(#[allow(dead_code)] RwLockWriteGuard<'static, ()>),
}

/// A number that is wanted in the gate's own log, where the lines of a test that passes are not shown.
macro_rules! tell {
    ($($what:tt)*) => {
        let _ = writeln!(std::io::stderr(), $($what)*);
    };
}

fn fosavalo(arguments: &[&str], folder: &Path) -> (Option<i32>, String, String) {
    let output = Command::new(checkout::program("fosavalo")).args(arguments).current_dir(folder).output().expect("it runs");
    let text = |bytes: &[u8]| String::from_utf8_lossy(bytes).into_owned();
    (output.status.code(), text(&output.stdout), text(&output.stderr))
}

/// Whether the program has the core to put into a page; else it says so, and there is nothing to look at.
fn can() -> bool {
    let can = fly::review::can();
    if !can {
        eprintln!("there is no WebAssembly of the core, so nothing was looked at");
    }
    can
}

/// The page of a flight; the files that it has are the flight's, byte for byte, and it fetches nothing.
fn page(folder: &Path, arguments: &[&str]) -> PathBuf {
    let page = folder.join("page.html");
    let _ = std::fs::remove_file(&page);
    let (code, out, err) = fosavalo(&[&["review"], arguments, &["-o", "page.html"]].concat(), folder);
    assert_eq!((code, out.as_str(), err.starts_with("the page: page.html, ")), (Some(0), "", true), "{err}");
    page
}

fn put(folder: &Path, name: &str, bytes: &[u8]) {
    std::fs::write(folder.join(name), bytes).expect("it is written");
}

fn scenario(folder: &Path, name: &str, text: &[u8]) {
    put(folder, &format!("{name}.txt"), text);
    assert_eq!(fosavalo(&["fly", &format!("{name}.txt"), "--out", "."], folder).0, Some(0));
}

/// The scripts are ours and short, and what a full log's page weighs and takes to write is within its bars.
#[test]
fn what_is_in_the_page() {
    let scripts = ["read", "judge", "view", "draw", "tell", "page"]
        .map(|name| std::fs::read_to_string(format!("review/{name}.js")).expect("it is text"));
    let lines = scripts.each_ref().map(|script| script.lines().count());
    assert!(lines.iter().sum::<usize>() <= 500 && lines.iter().all(|lines| *lines <= 100), "{lines:?}");
    let folder = checkout::scratch("review-in");
    if !can() {
        let (code, _, err) = fosavalo(&["review", "-o", "none.html"], &folder);
        assert!(code == Some(2) && err.starts_with("review: this program was built without"), "{err}");
        return;
    }
    let mut record = [0; 108];
    record[104..].copy_from_slice(&2f32.to_le_bytes());
    let mut log = Log::with_capacity(MOST_RECORDS);
    log.try_extend(std::iter::repeat_n(Record::from_bytes(&record).expect("it has the length"), MOST_RECORDS)).expect("it fits");
    put(&folder, "full.log", log.as_bytes());
    let mut least = Duration::MAX;
    for _ in 0..3 {
        let start = Instant::now();
        page(&folder, &["full.log", "--enter", "0.5", "--exit", "1"]);
        least = least.min(start.elapsed());
    }
    let text = std::fs::read_to_string(folder.join("page.html")).expect("it is text");
    tell!("the page of a full log: {} bytes, at most 10000000 are wanted; written in {least:?}, at most 200 ms are wanted", text.len());
    assert!(text.len() <= 10_000_000 && least <= Duration::from_millis(200));
    assert!(text.contains("default-src 'none'; script-src 'unsafe-inline' 'wasm-unsafe-eval'; style-src 'unsafe-inline'"));
    assert!(!["http:", "https:", "@import", "src=", "href=", "import("].iter().any(|other| text.contains(other)));
    for (arguments, what) in [
        (&["review", "full.log"][..], "review: which page is to be written?"),
        (&["review", "full.log", "-o", "x.html"], "review: which thresholds? "),
        (
            &["review", "full.log", "-o", "x.html", "--starts", "25:00:00"],
            "review: --starts: `25:00:00` is no time of day, as 20:31:07.250\n",
        ),
        (&["review", "full.log", "-o", "x.html", "--starts=20:31:7"], "review: --starts: `20:31:7` is no time of day"),
    ] {
        let (code, out, err) = fosavalo(arguments, &folder);
        assert_eq!((code, out.as_str(), err.starts_with(what)), (Some(2), "", true), "{err}");
    }
}

struct Browser {
    child: Child,
    to: ChildStdin,
    from: BufReader<ChildStdout>,
    id: u64,
    session: String,
    errors: Vec<String>,
    folder: PathBuf,
    /// given back once the browser is gone
    _turn: Turn,
}

impl Browser {
    fn start(name: &str) -> Option<Self> {
        Self::in_turn(name, Turn::Beside(TURNS.read().unwrap_or_else(PoisonError::into_inner)))
    }

    fn alone(name: &str) -> Option<Self> {
        Self::in_turn(name, Turn::Alone(TURNS.write().unwrap_or_else(PoisonError::into_inner)))
    }

    /// None where there is no Chromium; then that is said.
    fn in_turn(name: &str, turn: Turn) -> Option<Self> {
        let found = |name: &&&str| {
            Command::new(name).arg("--version").stdout(Stdio::null()).stderr(Stdio::null()).status().is_ok_and(|status| status.success())
        };
        let Some(program) = ["chromium", "chromium-browser", "google-chrome", "chromium-headless-shell"].iter().find(found) else {
            eprintln!("there is no Chromium (Debian: apt-get install chromium), so nothing was looked at");
            return None;
        };
        let folder = checkout::scratch(&format!("browser-{name}"));
        let flags = "--headless --no-sandbox --disable-gpu --no-first-run --disable-background-networking --disable-component-update --window-size=1600,1000 --remote-debugging-pipe";
        // it speaks on descriptors 3 and 4, which are our pipes
        let line = format!("exec {program} {flags} --user-data-dir=profile about:blank 3<&0 4>&1 0</dev/null 1>&2");
        let mut command = Command::new("sh");
        command.args(["-c", &line]).current_dir(&folder).stdin(Stdio::piped()).stdout(Stdio::piped()).stderr(Stdio::null());
        let mut child = command.spawn().expect("a shell");
        let (to, from) = (child.stdin.take().expect("it is piped"), BufReader::new(child.stdout.take().expect("it is piped")));
        let mut browser = Browser { child, to, from, id: 0, session: String::new(), errors: Vec::new(), folder, _turn: turn };
        let made = browser.call("Target.createTarget", "{\"url\":\"about:blank\"}");
        let target = field(&made, "\"targetId\":\"").expect("a target");
        let attached = browser.call("Target.attachToTarget", &format!("{{\"targetId\":\"{target}\",\"flatten\":true}}"));
        browser.session = field(&attached, "\"sessionId\":\"").expect("a session");
        for domain in ["Page", "Runtime", "Log"] {
            browser.call(&format!("{domain}.enable"), "{}");
        }
        browser.call("Performance.enable", "{\"timeDomain\":\"threadTicks\"}");
        Some(browser)
    }

    fn message(&mut self) -> String {
        let mut bytes = Vec::new();
        self.from.read_until(0, &mut bytes).expect("it speaks");
        assert!(bytes.pop().is_some(), "the browser went away");
        let text = String::from_utf8_lossy(&bytes).into_owned();
        if text.contains("Runtime.exceptionThrown") || text.contains("\"level\":\"error\"") || text.contains("\"type\":\"error\"") {
            self.errors.push(text.clone());
        }
        text
    }

    fn call(&mut self, method: &str, parameters: &str) -> String {
        self.id += 1;
        let session = if self.session.is_empty() { String::new() } else { format!(",\"sessionId\":\"{}\"", self.session) };
        let text = format!("{{\"id\":{},\"method\":\"{method}\",\"params\":{parameters}{session}}}\0", self.id);
        self.to.write_all(text.as_bytes()).expect("it listens");
        let id = format!("{{\"id\":{},", self.id);
        loop {
            let text = self.message();
            if text.starts_with(&id) {
                assert!(!text.contains("\"error\":{"), "{method}: {text}");
                return text;
            }
        }
    }

    /// What the page works out, as text.
    fn eval(&mut self, script: &str) -> String {
        let quoted = fly::json::text(&format!("(async()=>String(await ({script})))()"));
        let text = self.call("Runtime.evaluate", &format!("{{\"expression\":{quoted},\"awaitPromise\":true,\"returnByValue\":true}}"));
        field(&text, "\"value\":\"").unwrap_or_else(|| panic!("{script}: {text}"))
    }

    fn open(&mut self, page: &Path) {
        self.call("Page.navigate", &format!("{{\"url\":\"file://{}\"}}", page.display()));
        while !self.message().contains("Page.loadEventFired") {}
        self.eval("(async()=>{while(!window.review)await new Promise(r=>setTimeout(r,5));return 1})()");
    }

    /// The main thread's own time since the page was opened, s.
    fn spent(&mut self) -> f64 {
        let text = self.call("Performance.getMetrics", "{}");
        let number =
            text.split_once("\"TaskDuration\",\"value\":").map_or("", |(_, rest)| rest.split(['}', ',']).next().unwrap_or_default());
        number.parse().unwrap_or_else(|_| panic!("{text}"))
    }

    fn settle(&mut self) {
        self.eval("new Promise(r=>requestAnimationFrame(()=>requestAnimationFrame(r)))");
    }

    fn text(&mut self, id: &str) -> String {
        self.eval(&format!("document.getElementById('{id}').textContent"))
    }

    /// Until the flight is flown again.
    fn flown_again(&mut self) -> String {
        self.eval(
            "(async()=>{while(!/: /.test(review.now().replay??''))await new Promise(r=>setTimeout(r,20));return review.now().replay})()",
        )
    }

    fn mouse(&mut self, kind: &str, (x, y): (f64, f64), more: &str) {
        self.call("Input.dispatchMouseEvent", &format!("{{\"type\":\"{kind}\",\"x\":{x},\"y\":{y}{more}}}"));
    }

    fn key(&mut self, key: &str) {
        for kind in ["keyDown", "keyUp"] {
            self.call("Input.dispatchKeyEvent", &format!("{{\"type\":\"{kind}\",\"key\":\"{key}\"}}"));
        }
        self.settle();
    }
}

impl Drop for Browser {
    fn drop(&mut self) {
        let _ = self.child.kill();
        let _ = self.child.wait();
        let _ = std::fs::remove_dir_all(self.folder.join("profile"));
    }
}

/// A text of JSON behind this.
fn field(text: &str, before: &str) -> Option<String> {
    let (mut out, mut letters) = (String::new(), text.split_once(before)?.1.chars());
    while let Some(c) = letters.next() {
        match c {
            '"' => return Some(out),
            '\\' => match letters.next()? {
                'n' => out.push('\n'),
                't' => out.push('\t'),
                'u' => out.extend(char::from_u32(u32::from_str_radix(&letters.by_ref().take(4).collect::<String>(), 16).ok()?)),
                c => out.push(c),
            },
            c => out.push(c),
        }
    }
    None
}

/// What `check` says of it, as far as the page does.
fn verdict(folder: &Path, arguments: &[&str]) -> String {
    let (_, out, _) = fosavalo(&[&["check"], arguments].concat(), folder);
    let said = out.trim_end().split_once(": ").map_or("", |(_, said)| said);
    let end = said.find("): ").map_or(said.len(), |at| at + 1);
    let digits = |text: &str| text.replace(',', "");
    digits(&said[..end])
}

/// The earlier rule's pass by our thresholds: verdict and stretches are the core's, a click goes to a stretch, keys and wheel move the view, and the words under
/// the cursor are the log's; and by its own file it is right and flies again as the same.
#[test]
fn a_flight_in_a_browser() {
    let (true, Some(mut browser)) = (can(), Browser::start("flight")) else { return };
    let folder = checkout::scratch("review-flight");
    assert_eq!(fosavalo(&["fly", "--out", "."], &folder).0, Some(0));
    let given = ["pass-earlier.log", "--enter", "0.03", "--exit", "0.07"];
    let page_of = page(&folder, &[&given[..], &["--starts", "23:59:50.250"]].concat());
    browser.open(&page_of);
    assert_eq!(browser.text("verdict").replace(',', ""), verdict(&folder, &given));
    let (_, stretches, _) = fosavalo(&[&["explain"], &given[..], &["--csv"]].concat(), &folder);
    let causes = ["start", "above_exit", "below_enter", "not_finite"];
    let ours: Vec<String> = stretches
        .lines()
        .skip(1)
        .map(|line| {
            let cells: Vec<&str> = line.split(',').collect();
            let cause = causes.iter().position(|cause| *cause == cells[5]).expect("a cause");
            format!("{} {} {} {cause} {}", cells[0], cells[1], u8::from(cells[4] == "fallback"), cells[10])
        })
        .collect();
    let shown = browser
        .eval("review.now().stretches.map(([from,to,fallback,cause,differ])=>[from+1,to+1,fallback,cause,differ].join(' ')).join('\\n')");
    assert_eq!(shown, ours.join("\n"));
    // the rule's strip is under the log's own
    assert_eq!(browser.eval("review.PANELS.filter(p=>p.strip&&p.strip()).map(p=>p.name).join()"), "who flew,by the rule");
    assert!(browser.text("summary").contains("thresholds that the flags allow: enter above 0.0299"), "{}", browser.text("summary"));
    let place =
        browser.eval("(()=>{const r=document.querySelector('[data-i=\"2\"]').getBoundingClientRect();return r.left+20+' '+(r.top+10)})()");
    let (x, y) = place.split_once(' ').expect("two numbers");
    let place = (x.parse().expect("a number"), y.parse().expect("a number"));
    for kind in ["mousePressed", "mouseReleased"] {
        browser.mouse(kind, place, ",\"button\":\"left\",\"clickCount\":1");
    }
    browser.settle();
    let seen = "(()=>{const [from,to]=review.now().stretches[2],s=review.state;return [s.from<=review.now().t[from],s.to>=review.now().t[to],s.to-s.from<review.now().t[review.now().flight.N],s.cursor===from].join()})()";
    assert_eq!(browser.eval(seen), "true,true,true,true");
    // across midnight, by the recording's clock; how long it took is still told in seconds
    assert!(browser.text("summary").starts_with("20,000 ticks, 20.000 s · "), "{}", browser.text("summary"));
    assert!(browser.text("values").contains("\t23:59:5"), "{}", browser.text("values"));
    browser.key("End");
    assert!(browser.text("values").starts_with("record 20000 of 20000\t00:00:10.2"), "{}", browser.text("values"));
    // 27 words at random places, as the CSV has their bits
    let bytes = std::fs::read(folder.join("pass-earlier.log")).expect("it is there");
    let log = LogView::from_bytes(&bytes).expect("it is a log");
    for k in [0, 1, 1552, 7000, 19_999] {
        browser.eval(&format!("(review.cursor({k}),1)"));
        let shown = browser.text("values");
        let words: Vec<u32> = shown
            .lines()
            .skip(2)
            .enumerate()
            .map(|(w, line)| {
                let text = line.split('\t').nth(1).expect("a number");
                if w == 23 {
                    text.parse().expect("a whole number")
                } else {
                    fly::scenario::number(text).expect("a number").to_bits()
                }
            })
            .collect();
        assert_eq!(words, log.get(k).expect("it is there").words(), "{k}: {shown}");
    }
    for (key, moved) in [
        ("0", "s.from===0&&s.to===s.end"),
        ("+", "s.to-s.from<s.end"),
        ("x", "s.records&&s.end===20000"),
        ("x", "!s.records"),
        ("0", "s.to===s.end"),
    ] {
        browser.key(key);
        assert_eq!(browser.eval(&format!("(s=>{moved})(review.state)")), "true", "{key}");
    }
    browser.mouse("mouseWheel", (500.0, 300.0), ",\"deltaX\":0,\"deltaY\":-100");
    browser.settle();
    assert_eq!(browser.eval("review.state.to-review.state.from<review.state.end"), "true");
    // dragged, the moment under the mouse goes with it; with shift, what is dragged over is shown
    let middle = "(review.state.from+review.state.to)/2";
    let number = |text: String| -> f64 { text.parse().expect("a number") };
    let (before, wide) = (number(browser.eval(middle)), number(browser.eval("review.state.to-review.state.from")));
    let drag = |browser: &mut Browser, more: &str| {
        let held = format!(",\"button\":\"left\",\"buttons\":1,\"clickCount\":1{more}");
        browser.mouse("mousePressed", (800.0, 300.0), &held);
        browser.mouse("mouseMoved", (700.0, 300.0), &held);
        browser.mouse("mouseReleased", (700.0, 300.0), &held);
        browser.settle();
    };
    drag(&mut browser, "");
    let moved = number(browser.eval(middle)) - before;
    assert!(moved > 0.0 && (number(browser.eval("review.state.to-review.state.from")) - wide).abs() < 1e-9, "{moved}");
    drag(&mut browser, ",\"modifiers\":8");
    assert!((number(browser.eval("review.state.to-review.state.from")) - moved).abs() < 1e-6);
    // two fingers apart
    browser.key("0");
    for (kind, [a, b]) in [("touchStart", [500, 700]), ("touchMove", [450, 750]), ("touchMove", [400, 800])] {
        let points = format!("[{{\"x\":{a},\"y\":300,\"id\":1}},{{\"x\":{b},\"y\":300,\"id\":2}}]");
        browser.call("Input.dispatchTouchEvent", &format!("{{\"type\":\"{kind}\",\"touchPoints\":{points}}}"));
    }
    browser.call("Input.dispatchTouchEvent", "{\"type\":\"touchEnd\",\"touchPoints\":[]}");
    browser.settle();
    assert!(
        (number(browser.eval("(review.state.to-review.state.from)/review.state.end")) - 0.5).abs() < 1e-3,
        "{}",
        browser.eval("review.state.to")
    );
    // by its own file
    let page_of = page(&folder, &["pass-earlier.flight"]);
    browser.open(&page_of);
    assert_eq!(browser.text("verdict"), "right, 20,000 records");
    assert_eq!(browser.flown_again(), "flown again: the same");
    for name in ["exchange", "thrice", "rotor-lost"] {
        let page_of = page(&folder, &[&format!("{name}.flight")]);
        browser.open(&page_of);
        assert_eq!(browser.flown_again(), "flown again: the same", "{name}");
        let marks = browser.eval("[review.now().flight.exchanges,review.now().flight.joins.length].join(' ')");
        assert_eq!(
            marks,
            [("exchange", "7000,13000 0"), ("thrice", " 13"), ("rotor-lost", " 0")].iter().find(|(own, _)| *own == name).expect("one").1
        );
    }
    // one ulp in a gain is named
    let text = std::fs::read_to_string(folder.join("pass-shield.flight"))
        .expect("it is text")
        .replace("adrc_roll 40 12 ", "adrc_roll 40 12.000001 ");
    put(&folder, "other.flight", text.as_bytes());
    let (_, out, _) = fosavalo(&["replay", "other.flight"], &folder);
    let record = out.split_once("first at record ").and_then(|(_, rest)| rest.split_once(':')).expect("it differs").0;
    let page_of = page(&folder, &["other.flight"]);
    browser.open(&page_of);
    assert!(browser.flown_again().starts_with(&format!("flown again: different from record {record} on: torque x was ")));
    assert_eq!(browser.errors, Vec::<String>::new());
}

/// Nothing is lost between ticks: at two hundred views the least and the greatest that are drawn are those of the ticks in view.
#[test]
fn least_and_greatest() {
    let (true, Some(mut browser)) = (can(), Browser::start("views")) else { return };
    let folder = checkout::scratch("review-views");
    scenario(&folder, "long", &[&b"tick 3000 gyro 1.9 0 0\ndt nan\ntick 40\ndt 0.001\ntick 2000 gyro 0 1 0\ndt 2.5\ntick 3\ndt 0.001\nyaw nan\ntick 500\nyaw 0\n"[..], include_bytes!("../scenarios/band.txt").split(|byte| *byte == b'\n').filter(|line| line.starts_with(b"tick ") || line.starts_with(b"gyro ")).collect::<Vec<_>>().join(&b'\n').as_slice(), b"\n"].concat());
    let page_of = page(&folder, &["long-shield.flight"]);
    browser.open(&page_of);
    let views = "(()=>{let bad=0,seen=0,h=12345;const r=review,s=r.state,{flight:{col,N},t}=r.now(),random=()=>(h=Math.imul(h,1103515245)+12345>>>0)/4294967296;
        for(let i=0;i<200;i++){const end=s.end,a=random()*end;r.show(a,a+Math.exp(random()*-9)*(end-a));r.draw();
        const to=s.from+(s.to-s.from);let i0=0,i1=0;while(i0<N&&t[i0]<s.from)i0++;i1=i0;while(i1<N&&t[i1]<to)i1++;if(i0>0&&s.from-t[i0-1]<Math.fround(.1))i0--;
        for(const p of r.PANELS)if(!p.strip){let lo=Infinity,hi=-Infinity;for(const w of p.words)for(let k=i0;k<i1;k++){const v=col[w][k];if(Number.isFinite(v)){seen++;if(v<lo)lo=v;if(v>hi)hi=v}}if(lo!==p.least||hi!==p.most)bad++}}
        return bad+' '+(seen>100000)})()";
    assert_eq!(browser.eval(views), "0 true");
    assert_eq!(browser.errors, Vec::<String>::new());
}

/// Dropped on the page without a flight: a log, logs that go on, a flight's file with its log; each gets the verdict that `check` gives, and what is none is told.
#[test]
fn dropped() {
    let (true, Some(mut browser)) = (can(), Browser::start("dropped")) else { return };
    let folder = checkout::scratch("review-dropped");
    scenario(&folder, "my", b"tick 200\ntick 400 gyro 1.8 0 0\ntick 400\ntick 300 gyro 1.9 0 0\n");
    let bytes = std::fs::read(folder.join("my-shield.log")).expect("it is there");
    let cut = |from: usize, to: usize| {
        let mut log = Log::new();
        log.try_extend(LogView::from_bytes(&bytes).expect("it is a log").iter().skip(from).take(to - from)).expect("it fits");
        log.into_bytes()
    };
    put(&folder, "go-001.log", &cut(0, 700));
    put(&folder, "go-002.log", &cut(700, 1300));
    let mut wrong = bytes.clone();
    wrong[108 * 900 + 92] ^= 1;
    put(&folder, "wrong.log", &wrong);
    put(&folder, "bad.log", &[0; 12]);
    let page_of = page(&folder, &[]);
    browser.open(&page_of);
    let drop = |browser: &mut Browser, names: &[&str]| {
        let file = |name: &&str| {
            let bytes = std::fs::read(folder.join(name)).expect("it is there");
            let letters: String = bytes.iter().map(|byte| format!("{byte:02x}")).collect();
            format!("new File([Uint8Array.from('{letters}'.match(/../g)??[],x=>parseInt(x,16))],'{name}')")
        };
        let files: Vec<String> = names.iter().map(file).collect();
        browser.eval(&format!(
            "(async()=>{{const d=new DataTransfer();for(const f of [{}])d.items.add(f);for(const i of ['title','mistake'])document.getElementById(i).textContent='';document.body.dispatchEvent(new DragEvent('drop',{{dataTransfer:d,bubbles:true,cancelable:true}}));
            for(let i=0;i<400&&!document.getElementById('mistake').textContent&&!document.getElementById('title').textContent;i++)await new Promise(r=>setTimeout(r,5));return 1}})()",
            files.join(",")
        ));
    };
    let thresholds = ["--enter", "0.5", "--exit", "1"];
    drop(&mut browser, &["my-shield.log"]);
    assert_eq!(browser.text("verdict"), "which thresholds? a log does not tell them");
    assert!(browser.text("allowed").starts_with("enter above 0."), "{}", browser.text("allowed"));
    let ask = |browser: &mut Browser, enter: &str, exit: &str| {
        browser.eval(&format!("(()=>{{const e=i=>document.getElementById(i);e('enter').value='{enter}';e('exit').value='{exit}';e('ask').querySelector('button').click();return e('mistake').textContent}})()"))
    };
    assert_eq!(ask(&mut browser, "1", "0.5"), "no thresholds: set-up would have made them enter 1 and exit 2");
    assert_eq!(ask(&mut browser, "one", "0.5"), "`one` is no number");
    assert_eq!(ask(&mut browser, "0.5", "1"), "");
    for names in [&["my-shield.log"][..], &["wrong.log"], &["go-002.log", "go-001.log"]] {
        drop(&mut browser, names);
        assert_eq!(browser.text("verdict").replace(',', ""), verdict(&folder, &[names, &thresholds].concat()), "{names:?}");
    }
    assert_eq!(browser.eval("review.now().flight.seams.join()"), "700");
    drop(&mut browser, &["go-002.log"]);
    assert!(
        browser.text("verdict").starts_with("as if a flight began here (go-001.log goes before it): wrong at record 1 (place 0)"),
        "{}",
        browser.text("verdict")
    );
    drop(&mut browser, &["my-shield.flight", "my-shield.log"]);
    assert_eq!((browser.text("verdict"), browser.flown_again()), ("right, 1,300 records".to_string(), "flown again: the same".to_string()));
    for (names, what) in [
        (&["bad.log"][..], "bad.log: refused (8): "),
        (&["my-shield.flight"], "my-shield.log is missing: "),
        (&["my-shield.log", "wrong.log"], "one flight at a time: "),
    ] {
        drop(&mut browser, names);
        let said = browser.text("mistake");
        assert!(said.starts_with(what), "{said}");
    }
    assert_eq!(browser.errors, Vec::<String>::new());
}

/// Headings that are no numbers, a clock that runs to the end, no record, one record: each is drawn.
#[test]
fn odd_flights() {
    let (true, Some(mut browser)) = (can(), Browser::start("odd")) else { return };
    let folder = checkout::scratch("review-odd");
    scenario(&folder, "headings", include_bytes!("../scenarios/headings.txt"));
    scenario(&folder, "clock", include_bytes!("../scenarios/clock.txt"));
    scenario(&folder, "one", b"tick 1\n");
    put(&folder, "empty.log", Log::new().as_bytes());
    for arguments in
        [&["headings-shield.flight"][..], &["clock-shield.flight"], &["one-shield.flight"], &["empty.log", "--enter", "0.5", "--exit", "1"]]
    {
        let page_of = page(&folder, arguments);
        browser.open(&page_of);
        for key in ["+", "-", "x", "ArrowRight", "]", "[", ".", ",", "End", "Home", "y", "0", "x"] {
            browser.key(key);
        }
        let said = browser.text("verdict").replace(',', "");
        assert_eq!((said, browser.eval("review.state.frames>0")), (verdict(&folder, arguments), "true".to_string()), "{arguments:?}");
    }
    assert_eq!(browser.errors, Vec::<String>::new());
}

/// How long the main thread itself takes till a flight is drawn, and for a step of the zoom: the least of three.
#[test]
fn soon_drawn() {
    let (true, Some(mut browser)) = (can(), Browser::alone("soon")) else { return };
    let folder = checkout::scratch("review-soon");
    for (ticks, bar) in [(65_535, 0.6), (917_490, 5.0)] {
        let text: String = (0..ticks / 997).map(|k| format!("tick 997 gyro {} 0 0\n", [1.9, 0.2, 1.8][k % 3])).collect();
        scenario(&folder, "long", (text + &format!("tick {}\n", ticks % 997)).as_bytes());
        // by its logs, so that it is not flown again at once
        let logs: Vec<String> = (1..=ticks.div_ceil(65_534)).map(|number| format!("long-shield-{number:03}.log")).collect();
        let page_of =
            page(&folder, &[&logs.iter().map(String::as_str).collect::<Vec<_>>()[..], &["--enter", "0.5", "--exit", "1"]].concat());
        let mut drawn = f64::INFINITY;
        for _ in 0..3 {
            browser.open(&page_of);
            browser.settle();
            drawn = drawn.min(browser.spent());
        }
        assert_eq!(browser.eval("review.now().flight.N+' '+(review.state.frames>0)"), format!("{ticks} true"));
        tell!("{ticks} records are drawn in {drawn:.2} s of the main thread, at most {bar} are wanted");
        assert!(drawn <= bar, "{drawn}");
        if ticks < 100_000 {
            let steps = "(()=>{const r=review,end=r.state.end;for(let i=0;i<120;i++){const span=end*Math.pow(0.0005,1-Math.abs(60-i)/60);r.show(end*0.4-span/2,end*0.4+span/2);r.draw()}return 1})()";
            let mut step = f64::INFINITY;
            for _ in 0..3 {
                let before = browser.spent();
                browser.eval(steps);
                step = step.min(1e3 * (browser.spent() - before) / 120.0);
            }
            tell!("a step of the zoom: {step:.1} ms of the main thread, at most 17 are wanted");
            assert!(step <= 17.0, "{step}");
        }
    }
    assert_eq!(browser.errors, Vec::<String>::new());
    std::fs::remove_dir_all(folder).expect("it is there");
}
