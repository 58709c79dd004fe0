//! A browser without a window, driven over a pipe by the protocol that its own tools use: pages are loaded,
//! keys pressed, and scripts asked what is shown.

use crate::json::{quoted, Json};
use std::env;
use std::fs::{File, OpenOptions};
use std::io::{BufRead, BufReader, Write};
use std::path::{Path, PathBuf};
use std::process::{Child, Command};
use std::time::{Duration, Instant};
use suite::Scratch;

/// Its program, if one is on this machine: what `BROWSER` names, which may be no file, or Debian's chromium.
pub fn program() -> Option<PathBuf> {
    let named = env::var_os("BROWSER").map(PathBuf::from);
    let folders: Vec<PathBuf> =
        env::var_os("PATH").map(|path| env::split_paths(&path).collect()).unwrap_or_default();
    let known = ["chromium", "chromium-browser", "google-chrome"];
    let found = || {
        known
            .iter()
            .flat_map(|name| folders.iter().map(move |folder| folder.join(name)))
            .find(|path| path.is_file())
    };
    match named {
        Some(path) => Some(path).filter(|path| path.is_file()),
        None => found(),
    }
}

pub struct Browser {
    child: Child,
    to: File,
    from: BufReader<File>,
    sent: u64,
    session: String,
    /// What pages asked for, by address.
    pub requests: Vec<String>,
    _folder: Scratch,
}

/// One that no longer answers is ended after ten minutes, and its silence is then an error.
const LAUNCH: &str = r#"mkfifo "$FOLDER/to" "$FOLDER/from" && exec timeout 600 "$BROWSER" --headless --no-sandbox \
    --disable-gpu --no-first-run --user-data-dir="$FOLDER/profile" --window-size=1300,1100 \
    --remote-debugging-pipe 3<"$FOLDER/to" 4>"$FOLDER/from" >/dev/null 2>&1"#;

impl Browser {
    pub fn start(program: &Path) -> Result<Browser, String> {
        let folder = Scratch::make();
        let child = Command::new("bash")
            .args(["-c", LAUNCH])
            .env("FOLDER", folder.path(""))
            .env("BROWSER", program)
            .spawn()
            .map_err(told)?;
        wait_for(|| folder.path("from").exists())?;
        // In the order in which the shell opens the other ends.
        let to = OpenOptions::new().write(true).open(folder.path("to")).map_err(told)?;
        let from = BufReader::new(File::open(folder.path("from")).map_err(told)?);
        let (sent, session, requests) = (0, String::new(), Vec::new());
        let mut browser = Browser { child, to, from, sent, session, requests, _folder: folder };
        browser.attach()?;
        Ok(browser)
    }

    fn attach(&mut self) -> Result<(), String> {
        let made = self.send("Target.createTarget", r#"{"url":"about:blank"}"#)?;
        let target = quoted(text_at(&made, &["result", "targetId"])?);
        let words = format!(r#"{{"targetId":{target},"flatten":true}}"#);
        let attached = self.send("Target.attachToTarget", &words)?;
        self.session = text_at(&attached, &["result", "sessionId"])?.to_string();
        self.send("Network.enable", "{}").map(drop)
    }

    /// One command, and its reply; what the browser tells in between is looked through.
    fn send(&mut self, method: &str, words: &str) -> Result<Json, String> {
        self.sent += 1;
        let session = match self.session.as_str() {
            "" => String::new(),
            session => format!(r#","sessionId":{}"#, quoted(session)),
        };
        let id = self.sent;
        write!(self.to, r#"{{"id":{id},"method":"{method}","params":{words}{session}}}{}"#, '\0')
            .and_then(|()| self.to.flush())
            .map_err(told)?;
        loop {
            let message = self.message()?;
            if let Some(address) = message.at(&["params", "request", "url"]).and_then(Json::text) {
                self.requests.push(address.to_string());
            }
            if message.at(&["id"]) == Some(&Json::Number(id as f64)) {
                return match message.at(&["error", "message"]) {
                    Some(error) => Err(format!("  {method}: {error:?}")),
                    None => Ok(message),
                };
            }
        }
    }

    fn message(&mut self) -> Result<Json, String> {
        let mut bytes = Vec::new();
        self.from.read_until(0, &mut bytes).map_err(told)?;
        bytes.pop().ok_or("  the browser has ended")?;
        let text = String::from_utf8_lossy(&bytes).into_owned();
        Json::of(&text).ok_or_else(|| format!("  no reply: {text}"))
    }

    /// Loads a page and waits until it is there.
    pub fn load(&mut self, page: &Path) -> Result<(), String> {
        let address = quoted(&format!("file://{}", page.display()));
        self.send("Page.navigate", &format!(r#"{{"url":{address}}}"#))?;
        let end = Instant::now() + Duration::from_secs(60);
        let ready = "String(document.readyState === 'complete' && location.protocol === 'file:')";
        while self.ask(ready)? != "true" {
            if Instant::now() > end {
                return Err("  the page was not loaded in a minute".into());
            }
        }
        Ok(())
    }

    /// What a script answers, which must be a text.
    pub fn ask(&mut self, script: &str) -> Result<String, String> {
        let words = format!(r#"{{"expression":{},"returnByValue":true}}"#, quoted(script));
        let reply = self.send("Runtime.evaluate", &words)?;
        if let Some(what) = reply.at(&["result", "exceptionDetails", "exception", "description"]) {
            return Err(format!("  the script: {what:?}"));
        }
        Ok(text_at(&reply, &["result", "result", "value"])?.to_string())
    }

    /// Presses a key that has a name and a number.
    pub fn press(&mut self, key: &str, number: u32) -> Result<(), String> {
        for kind in ["rawKeyDown", "keyUp"] {
            let words = format!(
                r#"{{"type":"{kind}","key":"{key}","code":"{key}","windowsVirtualKeyCode":{number}}}"#
            );
            self.send("Input.dispatchKeyEvent", &words)?;
        }
        Ok(())
    }
}

impl Drop for Browser {
    fn drop(&mut self) {
        let closed = write!(self.to, r#"{{"id":0,"method":"Browser.close"}}{}"#, '\0').is_ok();
        let _ = wait_for(|| !closed || matches!(self.child.try_wait(), Ok(Some(_)) | Err(_)));
        let _ = self.child.kill();
        let _ = self.child.wait();
    }
}

fn told(error: std::io::Error) -> String {
    format!("  the browser: {error}")
}

fn text_at<'a>(value: &'a Json, way: &[&str]) -> Result<&'a str, String> {
    value.at(way).and_then(Json::text).ok_or_else(|| format!("  no {way:?} in {value:?}"))
}

fn wait_for(mut what: impl FnMut() -> bool) -> Result<(), String> {
    let end = Instant::now() + Duration::from_secs(20);
    while !what() {
        if Instant::now() > end {
            return Err("  the browser did not start".into());
        }
        std::thread::sleep(Duration::from_millis(20));
    }
    Ok(())
}
