// What a form field says where its text can't be sent, in the languages that are used most; `{example}` and the like are numbers as the field
// writes them.
export const MESSAGES = {
  en: {
    bad: "Enter a number such as {example}.", missing: "Enter a number.", low: "Enter a number that is at least {min}.", high: "Enter a number that is at most {max}.",
    step: "The nearest numbers that can be entered are {below} and {above}.", unusable: "Numbers can't be read here: {reason}.",
  },
  zh: {
    bad: "请输入数字，例如 {example}。", missing: "请输入数字。", low: "请输入不小于 {min} 的数字。", high: "请输入不大于 {max} 的数字。",
    step: "可以输入的最接近的数字是 {below} 和 {above}。", unusable: "此处无法读取数字：{reason}。",
  },
  hi: {
    bad: "कोई संख्या लिखें, जैसे {example}।", missing: "कोई संख्या लिखें।", low: "{min} या उससे बड़ी संख्या लिखें।", high: "{max} या उससे छोटी संख्या लिखें।",
    step: "सबसे नज़दीकी मान्य संख्याएँ {below} और {above} हैं।", unusable: "यहाँ संख्याएँ पढ़ी नहीं जा सकतीं: {reason}।",
  },
  es: {
    bad: "Escriba un número como {example}.", missing: "Escriba un número.", low: "Escriba un número mayor o igual que {min}.", high: "Escriba un número menor o igual que {max}.",
    step: "Los números válidos más próximos son {below} y {above}.", unusable: "Aquí no se pueden leer números: {reason}.",
  },
  ar: {
    bad: "أدخل رقمًا مثل {example}.", missing: "أدخل رقمًا.", low: "أدخل رقمًا لا يقل عن {min}.", high: "أدخل رقمًا لا يزيد على {max}.",
    step: "أقرب رقمين يمكن إدخالهما هما {below} و{above}.", unusable: "لا يمكن قراءة الأرقام هنا: {reason}.",
  },
  fr: {
    bad: "Saisissez un nombre tel que {example}.", missing: "Saisissez un nombre.", low: "Saisissez un nombre supérieur ou égal à {min}.", high: "Saisissez un nombre inférieur ou égal à {max}.",
    step: "Les nombres valides les plus proches sont {below} et {above}.", unusable: "Les nombres ne peuvent pas être lus ici : {reason}.",
  },
  pt: {
    bad: "Digite um número como {example}.", missing: "Digite um número.", low: "Digite um número maior ou igual a {min}.", high: "Digite um número menor ou igual a {max}.",
    step: "Os números válidos mais próximos são {below} e {above}.", unusable: "Não é possível ler números aqui: {reason}.",
  },
  de: {
    bad: "Geben Sie eine Zahl ein, zum Beispiel {example}.", missing: "Geben Sie eine Zahl ein.", low: "Geben Sie eine Zahl ein, die mindestens {min} ist.", high: "Geben Sie eine Zahl ein, die höchstens {max} ist.",
    step: "Die nächsten Zahlen, die möglich sind, sind {below} und {above}.", unusable: "Zahlen können hier nicht gelesen werden: {reason}.",
  },
};

/** The language of the messages for a page in a language: `de` for `de_AT`, and `en` where there are none. */
export function languageOf(tag) {
  const [language] = tag.toLowerCase().split(/[-_]/);
  return Object.hasOwn(MESSAGES, language) ? language : "en";
}
