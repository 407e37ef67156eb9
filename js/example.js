// Writes a number as German, Hindi and Arabic readers write it.
import { DecimalFormatter } from "legumeyet";

for (const locale of ["de", "hi", "ar-EG"]) console.log(new DecimalFormatter(locale).format("1234567.891"));
