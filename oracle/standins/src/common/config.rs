//! Stands in for `common/config.rs`: the settings that the given files read, partial samples on.

pub struct Config {
    pub stats: bool,
    pub instance: InstanceConf,
    pub teacher: TeacherConf,
}
pub struct InstanceConf {
    pub term_capa: usize,
}
pub struct TeacherConf {
    pub partial: bool,
}

impl Config {
    pub fn clap() -> Self {
        Config {
            stats: false,
            instance: InstanceConf { term_capa: 3000 },
            teacher: TeacherConf { partial: true },
        }
    }
    pub fn emph(&self, text: &str) -> String {
        text.into()
    }
    pub fn bad(&self, text: &str) -> String {
        text.into()
    }
}
