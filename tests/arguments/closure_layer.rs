//! A layer whose handlers and predicate are closures.
ghost use Rattle.web_extract.specs.LayerConfigurations.{IsUsableForm, IsUsableJson};

use web_body::{JsonPayloadError, UrlencodedError};
use web_decoders::{ByFn, FormConfig, JsonConfig};
use web_extract::{Configs, LayerConfigs, NoHandler};
use web_reply::Error;
use web_request::{AppLayer, NoMemory, RequestHead};
use web_texts::Mime;

/// A layer that reads JSON bodies and forms by closures.
#[derive(Drop)]
pub(crate) struct ClosureLayer<F, G, P> {
    pub json: JsonConfig<ByFn<F>, ByFn<P>>,
    pub form: FormConfig<ByFn<G>>,
}

impl<
    F: Fn(JsonPayloadError, &RequestHead) -> Result<Error, NoMemory> + Drop,
    G: Fn(UrlencodedError, &RequestHead) -> Result<Error, NoMemory> + Drop,
    P: Fn(&Mime) -> bool + Drop,
> AppLayer for ClosureLayer<F, G, P> {
    ghost use Rattle.web_extract.specs.LayerConfigurations.{IsUsableForm, IsUsableJson};

    ghost ready = { λ l.
        IsUsableJson (λ h. F.IsAlwaysCallable h.0) (λ p. P.IsAlwaysCallable p.0) l.json
        × IsUsableForm (λ h. G.IsAlwaysCallable h.0) l.form };
}

impl<
    F: Fn(JsonPayloadError, &RequestHead) -> Result<Error, NoMemory> + Drop,
    G: Fn(UrlencodedError, &RequestHead) -> Result<Error, NoMemory> + Drop,
    P: Fn(&Mime) -> bool + Drop,
> Configs for ClosureLayer<F, G, P> {
    ghost use Rattle.std.specs.Prelude.{Some};
    ghost use Rattle.web_extract.specs.LayerConfigurations.{holds_nothing};

    type OnJson = ByFn<F>;

    type OnForm = ByFn<G>;

    type OnPath = NoHandler;

    type OnQuery = NoHandler;

    type JsonType = ByFn<P>;

    ghost configurations = { λ l. record (holds_nothing) {
      json = Some l.json;
      form = Some l.form;
    } };

    fn configurations(&self) -> LayerConfigs<'_, ByFn<F>, ByFn<G>, NoHandler, NoHandler, ByFn<P>> {
        LayerConfigs {
            json: Some(&self.json),
            form: Some(&self.form),
            ..LayerConfigs::none()
        }
    }
}
