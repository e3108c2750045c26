//! Stands in for rcgen, which quinn's tests want and Debian does not have: a self-signed certificate for the names asked for, made by
//! openssl when it is asked for.
use std::fs;
use std::process::{self, Command};
use std::sync::atomic::{AtomicU64, Ordering};

#[derive(Debug)]
pub struct RcgenError(pub String);

pub struct Certificate {
    certificate: Vec<u8>,
    key: Vec<u8>,
}

impl Certificate {
    pub fn serialize_der(&self) -> Result<Vec<u8>, RcgenError> {
        Ok(self.certificate.clone())
    }

    pub fn serialize_private_key_der(&self) -> Vec<u8> {
        self.key.clone()
    }
}

pub fn generate_simple_self_signed(names: impl Into<Vec<String>>) -> Result<Certificate, RcgenError> {
    static COUNT: AtomicU64 = AtomicU64::new(0);
    let folder = std::env::temp_dir().join(format!("rcgen-{}-{}", process::id(), COUNT.fetch_add(1, Ordering::Relaxed)));
    fs::create_dir_all(&folder).map_err(|e| RcgenError(e.to_string()))?;
    let made = make(&folder, &names.into());
    let _ = fs::remove_dir_all(&folder);
    made
}

fn make(folder: &std::path::Path, names: &[String]) -> Result<Certificate, RcgenError> {
    let file = |name: &str| folder.join(name).display().to_string();
    let alternatives: Vec<_> = names.iter().map(|n| format!("DNS:{n}")).collect();
    let config = format!(
        "[req]\ndistinguished_name = dn\nx509_extensions = ext\nprompt = no\n[dn]\nCN = quinn test\n[ext]\nsubjectAltName = {}\n",
        alternatives.join(",")
    );
    fs::write(file("config"), config).map_err(|e| RcgenError(e.to_string()))?;
    openssl(&["genpkey", "-algorithm", "EC", "-pkeyopt", "ec_paramgen_curve:P-256", "-out", &file("key.pem")])?;
    openssl(&["pkcs8", "-topk8", "-nocrypt", "-in", &file("key.pem"), "-outform", "DER", "-out", &file("key.der")])?;
    let (config, key, certificate) = (file("config"), file("key.pem"), file("certificate.der"));
    openssl(&["req", "-x509", "-days", "10", "-config", &config, "-key", &key, "-outform", "DER", "-out", &certificate])?;
    let read = |name: String| fs::read(name).map_err(|e| RcgenError(e.to_string()));
    Ok(Certificate { certificate: read(certificate)?, key: read(file("key.der"))? })
}

fn openssl(words: &[&str]) -> Result<(), RcgenError> {
    let o = Command::new("openssl").args(words).output().map_err(|e| RcgenError(e.to_string()))?;
    match o.status.success() {
        true => Ok(()),
        false => Err(RcgenError(String::from_utf8_lossy(&o.stderr).into_owned())),
    }
}
