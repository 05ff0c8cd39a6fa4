//! English words for books and letters: common ones, and longer ones with endings.

/// The commonest words, most common first.
const COMMON: &str = "the of and to in a is that it was i for on you with as have be his they at not this from or by one had but what all were when we \
    there can an your which their said if do will each about how up out them then she many some so these would other into has more her two \
    like him see time could no make than first been its who now people my made over did down only way find use may long little very after \
    just where most know before never letter me think much again old right look still here own under last great came our house hand good \
    year work such name should home small large even land because turn ask went men read need different us move try kind point world near \
    both father every light thought head enough always family night while real life few open seem together next white begin got those \
    paper often until mile feet care second group carry took rain eat room friend began idea fish mountain stop once base hear horse cut \
    sure watch color face wood main girl usual young ready above ever red list though feel talk bird soon body dog song";

/// Longer words, from which others are made by endings.
const LONGER: &str = "print publish permit burn destroy copy quote release archive deposit execute return own sign diary poem draft manuscript seal request \
    consent express reproduce photograph newspaper editor press law widow daughter secret trust promise wish forbid allow right reserve \
    license credit acknowledge source library account address advance advise afternoon agree amount answer appear approach arrange arrive \
    article attempt attend author avoid balance bargain bear beauty become behave believe belong beneath bitter bless borrow breath brother \
    build burden business careful carriage castle cause cease certain chamber change chapter character charge cheer child choose church \
    circumstance citizen claim clear climb close clothe collect comfort command commence common company compare complain complete concern \
    condition conduct confess confide connect consider constant contain content continue converse correct cottage counsel country courage \
    cousin cover creature cross crowd cultivate curious danger dark deal dear debt deceive decide declare deep defend delay delight deliver \
    demand depart depend describe deserve desire despair detail determine develop differ difficult dinner direct disappear discover discuss \
    distance distinguish disturb divide doubt dread dress drink duty eager earnest earth educate effect effort employ encourage endeavour \
    engage enjoy enter entire entreat equal escape establish esteem evening event evidence exact examine example excellent except exchange \
    excite excuse exercise exist expect expense experience explain extend extreme fail faith family fancy farm fashion favour fellow fever \
    field fifteen figure finish flatter flower follow foolish foreign forget forgive form fortune forward found frequent friend fright \
    garden gather general gentle glad govern gracious gradual grateful great grief ground guard guest habit happen harbour hasten health \
    heart heaven hesitate history holiday honest honour hope horror hundred husband ignore imagine immediate import impossible impress \
    improve incline income increase indeed independent indulge inform inhabit injure innocent inquire instance instruct intend interest \
    introduce invite island journey judge justice kindness kingdom knowledge labour lament language laugh leave lecture leisure lesson \
    liberal likely listen live lodge lonely manner market marry master matter meadow measure medicine meet member memory mention merchant \
    mercy method midnight mind minister misery moment money morning mother motion murmur music nature necessary neglect neighbour notice \
    number obey object oblige observe obtain occasion occupy offend offer office opinion opportunity oppose order ordinary origin pain \
    parish parlour particular partner passage passion patience peace peculiar perceive perfect perform perhaps person persuade physician \
    picture piece pity plain plant please plough poor popular possess possible postpone poverty practice praise prefer prepare presence \
    preserve preside pretend prevent principle prison private probable proceed produce profess profit progress promote proper propose \
    protect proud prove provide province prudent purchase purpose pursue quarrel quarter quiet rather reason receive recollect recommend \
    recover refuse regard regret reject rejoice relate relieve religion remain remark remember remove render repair repeat reply report \
    represent resemble reside resist resolve respect restore result retire reveal reward ridicule sacrifice satisfy scarce scholar school \
    season secure select sensible sentiment separate serious servant settle severe shadow sharp shelter sickness silence similar simple \
    sincere sister situate society soldier solemn solicit sorrow speak spirit splendid spring station steady stranger street strength \
    struggle student study subject submit succeed suffer suffice suggest summer supper supply support suppose surprise surround suspect \
    sweet sympathy system teach temper tempest tender terrible thankful theatre thousand throne thunder tobacco tomorrow torment toward \
    travel treasure treat tremble trifle trouble uncommon understand unhappy universal unless usual valley value vanish variety vessel \
    victory village violent virtue visit voice volume voyage wander warm wealth weather welcome whisper wholesome wilderness willing window \
    winter wisdom withdraw witness wonder worth wound wretch yesterday youth zealous";

const ENDINGS: [&str; 12] = [
    "", "s", "ed", "ing", "ly", "er", "ness", "able", "ment", "ation", "ful", "ity",
];

/// The word with an ending, spelled well enough: "copies", "reproducing".
fn with_ending(word: &str, ending: &str) -> String {
    let vowel_follows = ending.starts_with(&['a', 'e', 'i'][..]);
    match word.as_bytes() {
        [.., b'e'] if vowel_follows => word[..word.len() - 1].to_string() + ending,
        [.., b'a' | b'e' | b'o', b'y'] => word.to_string() + ending,
        [.., b'y'] if ending == "s" => word[..word.len() - 1].to_string() + "ies",
        [.., b'y'] if !ending.is_empty() && ending != "ing" => {
            word[..word.len() - 1].to_string() + "i" + ending
        }
        _ => word.to_string() + ending,
    }
}

/// All words, the commonest first.
pub fn all() -> Vec<String> {
    let mut words: Vec<String> = COMMON.split_whitespace().map(String::from).collect();
    for ending in ENDINGS {
        words.extend(
            LONGER
                .split_whitespace()
                .map(|word| with_ending(word, ending)),
        );
    }
    let mut seen = std::collections::HashSet::new();
    words.retain(|word| seen.insert(word.clone()));
    words
}

/// The word with a capital letter.
pub fn capital(word: &str) -> String {
    let mut letters = word.chars();
    match letters.next() {
        Some(first) => first.to_ascii_uppercase().to_string() + letters.as_str(),
        None => String::new(),
    }
}
