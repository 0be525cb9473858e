import java.io.File;
import javafx.application.Application;
import javafx.fxml.FXMLLoader;
import javafx.scene.Parent;
import javafx.scene.Scene;
import javafx.scene.control.Label;
import javafx.scene.image.PixelFormat;
import javafx.scene.image.PixelReader;
import javafx.scene.image.WritableImage;
import javafx.stage.Stage;

/**
 * Makes frames of a scene by JavaFX: {@code Peer SCENE SHEET FRAMES WIDTH HEIGHT}. Before each the label {@code n0} gets
 * another width. It prints how long the start of the toolkit, the scene, the first frame and the others took, in
 * milliseconds, and the sum of all pixels, as {@code fxplay --summary} does.
 */
public class Peer extends Application {
    private static final long BEGAN = System.nanoTime();

    public static void main(String[] words) {
        launch(words);
    }

    @Override
    public void start(Stage stage) throws Exception {
        long started = System.nanoTime();
        var words = getParameters().getRaw();
        int frames = Integer.parseInt(words.get(2));
        FXMLLoader loader = new FXMLLoader(new File(words.get(0)).toURI().toURL());
        Parent root = loader.load();
        Scene scene = new Scene(root, Integer.parseInt(words.get(3)), Integer.parseInt(words.get(4)));
        scene.getStylesheets().add(new File(words.get(1)).toURI().toString());
        Label first = (Label) loader.getNamespace().get("n0");
        long loaded = System.nanoTime();
        WritableImage image = frame(scene, first, 0, null);
        long sum = sum(image);
        long shown = System.nanoTime();
        for (int number = 1; number < frames; number++) {
            image = frame(scene, first, number, image);
            sum += sum(image);
        }
        long ended = System.nanoTime();
        System.out.printf("%.0f %.0f %.0f %.0f %dx%d %d%n", (started - BEGAN) / 1e6, (loaded - started) / 1e6,
            (shown - loaded) / 1e6, (ended - shown) / 1e6, (int) image.getWidth(), (int) image.getHeight(), sum);
        System.exit(0);
    }

    private static WritableImage frame(Scene scene, Label first, int number, WritableImage last) {
        first.setPrefWidth(36 + number % 7);
        scene.getRoot().applyCss();
        scene.getRoot().layout();
        return scene.snapshot(last);
    }

    private static long sum(WritableImage image) {
        PixelReader reader = image.getPixelReader();
        int width = (int) image.getWidth();
        int[] row = new int[width];
        long sum = 0;
        for (int y = 0; y < image.getHeight(); y++) {
            reader.getPixels(0, y, width, 1, PixelFormat.getIntArgbInstance(), row, 0, width);
            for (int pixel : row) {
                sum += pixel & 0xffffff;
            }
        }
        return sum;
    }
}
