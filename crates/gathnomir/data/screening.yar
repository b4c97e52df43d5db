/*
 * Mail screening of the school authority: rules for the hold queue.
 * What matches is held back until an officer has looked at it; nothing is
 * deleted. Questions to the help desk, "Schulträger, Zimmer 12".
 */
import "math"
import "pe"     // only for attachments that are programs

// Every mail that carries an attachment.
private rule MailWithAttachment : mail
{
    meta:
        author = "school authority, screening"
        version = 3
        weight = -1
        active = true
    strings:
        $from = "From: " ascii
        $type = "Content-Type: multipart/mixed" nocase
        $part = /Content-Disposition:[ \t]{1,4}attachment/i
    condition:
        $from in (0..4KB) and #part >= 1
        and for all of them : ( # < 100 and not $ at filesize - 1 )
}

// Newsletters and parents' letters of our own; they are never held.
private rule OwnLetter : mail trusted
{
    strings:
        $sender_a = "newsletter@schools.example" ascii wide
        $sender_b = "office@schools.example" fullword
        $foot = "You receive this letter\tas a parent\x2e \"Unsubscribe\"\r\n"
    condition:
        any of them and 1 of ($sender_*) in (0..1024) and ($foot or not #foot == 0)
}

rule PackedAttachment : attachment archive
{
    meta:
        description = "an archive that is packed or encrypted throughout"
        reference = "circular 7\\2024, \"Attachments\""
    strings:
        $zip = { 50 4B 03 04 [4-8] ( 08 00 | 00 00 | 0? 09 ) ?? [2] 00 }
        $seven = { 37 7A BC AF  27 1C /* seven-zip */ }
        $rar = "Rar!\x1A\x07"
        $note = "password" nocase fullword
    condition:
        // a small file is cheap to open and is looked at elsewhere
        filesize > 10KB and filesize < 5MB and
        any of ($zip, $seven, $rar) and
        math.entropy(0, filesize) > 7.2 /* bits in a byte */ and
        ( for any of ($zip, $seven, $rar) : ( $ at 0 )
          or #note in (filesize - 2KB..filesize) > 0 )
}

rule ManyLinks : links
{
    strings:
        $a1 = "http://" nocase
        $a2 = "https://" nocase
        $a3 = /www\.[a-z0-9\-]{2,40}\.(com|net|org)/ nocase
        $word1 = "grade" fullword
        $word2 = "timetable" fullword
        $word3 = "homework" fullword xor(1-31)
        $word4 = "lottery" base64
    condition:
        2 of ($a*) and 50% of them
        and for any i in (1..#a1) : ( @a1[i] < filesize \ 2 )
        and for all of ($word1, $word2) : ( # < 3 and @ > 0x40 )
        and for 1 n in (1, 2, #a2 - 1) : ( !a3[n] + n * 2 > 0x1F )
        // differences group from the left ..
        and filesize - #a1 - #a2 > 2 + 3 * #a3
        // .. unless parentheses say otherwise
        and filesize - (#a1 - #a2) != -(#word1 - 2) - -1
        and (filesize - 1) - #word3 >= 64 % 7 \ 2
        and (uint16(0) & ~0x000F) ^ 0o17 | 1 << 4 == uint16be(2) >> 1
        and none of ($word3, $word4)
}

// exactly forty bytes are in this line.
// and here there is one more: forty-one.
rule ProgramAttached : attachment program
{
    strings:
        $mz = { 4D 5A }
        $text = "This program cannot be run in DOS mode" wide ascii
    condition:
        MailWithAttachment and not OwnLetter and any of (PackedAttachment, ManyLinks) or
        $mz at 0 and $text and defined pe.number_of_sections and
        (
            pe.number_of_sections > 2 and pe.is_dll() == 0 or
            for any part in pe.sections : ( part.name == ".text" and part.raw_data_size == 0 )
        ) and
        not (
            pe.version_info["CompanyName"] matches /^school(s)?\.example$/i or
            pe.version_info["InternalName"] contains "register\\\"marks\"\x2eexe" or
            pe.version_info["ProductName"] icontains "Zeugnis für Schüler" or
            pe.dll_name iequals "timetable.dll"
        ) and
        math.deviation(0, filesize, math.MEAN_BYTES) <= 64.25 and true
}

/* `with` is known to the newer engine alone, so this rule is the last one. */
rule RepeatedGreeting
{
    strings:
        $hello = "Dear parents," nocase
        $bye = "Kind regards" nocase
    condition:
        with half = filesize \ 2, greetings = #hello + #bye - 1 :
        (
            greetings > 0 and @hello[1] < half	and	not $bye in (0..half)
            and """the "last" word""" endswith "\"last\" word"
            and 12.5% of ($hello, $bye)
        )
}
