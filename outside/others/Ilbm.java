// TwelveMonkeys' ImageIO plug-in for IFF. `java Ilbm.java write IN.png OUT.ilbm plain|packed` writes a picture;
// `java Ilbm.java read FOLDER OUT` shows each file of the folder that it can read as a PPM.

import java.awt.image.BufferedImage;
import java.io.ByteArrayOutputStream;
import java.io.File;
import java.io.IOException;
import java.nio.file.Files;
import javax.imageio.IIOException;
import javax.imageio.IIOImage;
import javax.imageio.ImageIO;
import javax.imageio.ImageWriteParam;
import javax.imageio.ImageWriter;
import javax.imageio.stream.ImageOutputStream;

class Ilbm {
    public static void main(String[] words) throws IOException {
        if (words[0].equals("write")) write(new File(words[1]), new File(words[2]), words[3].equals("packed"));
        else read(new File(words[1]), new File(words[2]));
    }

    static void write(File from, File to, boolean packed) throws IOException {
        ImageWriter writer = ImageIO.getImageWritersByFormatName("iff").next();
        ImageWriteParam param = writer.getDefaultWriteParam();
        param.setCompressionMode(packed ? ImageWriteParam.MODE_DEFAULT : ImageWriteParam.MODE_DISABLED);
        Files.deleteIfExists(to.toPath());
        try (ImageOutputStream out = ImageIO.createImageOutputStream(to)) {
            writer.setOutput(out);
            writer.write(null, new IIOImage(ImageIO.read(from), null, null), param);
        }
    }

    static void read(File folder, File to) throws IOException {
        for (File file : folder.listFiles((parent, name) -> name.endsWith(".ilbm"))) {
            String name = file.getName().replace(".ilbm", ".ppm");
            try {
                Files.write(new File(to, name).toPath(), ppm(ImageIO.read(file)));
            } catch (IIOException | RuntimeException fault) {
                System.err.println(file + ": " + fault.getMessage());
            }
        }
    }

    static byte[] ppm(BufferedImage picture) throws IOException {
        int width = picture.getWidth(), height = picture.getHeight();
        ByteArrayOutputStream out = new ByteArrayOutputStream();
        out.write(("P6\n" + width + " " + height + "\n255\n").getBytes());
        for (int colour : picture.getRGB(0, 0, width, height, null, 0, width)) {
            out.write(colour >> 16);
            out.write(colour >> 8);
            out.write(colour);
        }
        return out.toByteArray();
    }
}
