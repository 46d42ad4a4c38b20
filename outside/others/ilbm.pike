// Pike's Image.ILBM. `pike ilbm.pike write IN.ppm OUT.ilbm palette|direct` writes a picture;
// `pike ilbm.pike read FOLDER OUT` shows each file of the folder that it can read as a PPM.

void write(string from, string to, string how) {
    object picture = Image.PNM.decode(Stdio.read_file(from));
    mapping options = how == "direct" ? ([]) : (["palette": Image.Colortable(picture)]);
    Stdio.write_file(to, Image.ILBM.encode(picture, options));
}

void read(string folder, string to) {
    foreach (glob("*.ilbm", get_dir(folder)), string name) {
        object picture;
        if (catch { picture = Image.ILBM.decode(Stdio.read_file(combine_path(folder, name))); })
            werror("%s: refused\n", name);
        else
            Stdio.write_file(combine_path(to, name - ".ilbm" + ".ppm"), Image.PNM.encode_P6(picture));
    }
}

void main(int count, array(string) words) {
    if (words[1] == "write") write(@words[2..]);
    else read(@words[2..]);
}
