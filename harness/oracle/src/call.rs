// One pass through the cut functions: the request made of its row, the calls in the order of
// the Rust's own callers, and the answer as a record.

use sessions::layout::{DEPTH_STENCIL_PLACE, NONE, NO_PLACE, RESOLVE_PLACE};
use sessions::reply::{aspects, operations, Attachment, Part, Reply};

use crate::command::memory_init::surface;
use crate::outcome::{usage_number, RecordedPass, Recorder};
use crate::resources::Resources;

/// What the Rust answers to a pass whose fields are lawful. The lists are not put back.
pub(crate) fn judge(
    resources: &Resources,
    pass: &sessions::Pass,
    actions: &mut CommandBufferTextureMemoryActions,
) -> Reply {
    match accept(resources, pass, actions) {
        Ok(reply) => reply,
        Err(error) => {
            let (number, place, earlier) = number_and_places(&error, pass);
            Reply::refused(number, place, Some(earlier))
        }
    }
}

/// `fill_arc_desc`, `start` and `finish`.
fn accept(
    resources: &Resources,
    pass: &sessions::Pass,
    actions: &mut CommandBufferTextureMemoryActions,
) -> Result<Reply, RenderPassErrorInner> {
    let device = &resources.device;
    validation::begin_count();
    let mut desc = ArcRenderPassDescriptor {
        label: &None,
        color_attachments: ArrayVec::new(),
        depth_stencil_attachment: None,
        timestamp_writes: None,
        occlusion_query_set: None,
        multiview_mask: None,
    };
    fill_arc_desc(request(resources, pass), &mut desc, device)?;
    let mut recorder = Recorder::default();
    let mut clears = SurfacesInDiscardState::new();
    let guard = SnatchGuard(std::marker::PhantomData);
    let info = RenderPassInfo::start(
        device,
        None,
        &desc.color_attachments,
        desc.depth_stencil_attachment,
        desc.timestamp_writes,
        desc.occlusion_query_set,
        &mut recorder,
        &mut Tracker::default(),
        actions,
        &mut QueryResetMap,
        &mut clears,
        &guard,
        &mut QuerySetWrites,
        desc.multiview_mask,
    )?;
    let mut reply = reply_of(&info, &recorder.passes[0]);
    reply.clears = clears.iter().map(surface).collect();
    let mut scope = UsageScope {
        textures: Default::default(),
        lifetime: std::marker::PhantomData,
    };
    info.finish(device, &mut recorder, &guard, &mut scope, device.instance_flags)?;
    check_divergent_clear(&reply, &recorder.passes[1..]);
    Ok(reply)
}

/// The reply of an accepted pass, without its clears.
fn reply_of(info: &RenderPassInfo, pass: &RecordedPass) -> Reply {
    let tracked = info.render_attachments.iter();
    let usages: Vec<u32> = tracked.map(|at| usage_number(at.usage)).collect();
    let told: Vec<u32> = pass.attachments.iter().map(|at| at.usage).collect();
    assert_eq!(usages, told, "the tracker and the encoder are told the same usages");
    assert_eq!(
        (info.extent.width, info.extent.height, info.context.sample_count),
        (pass.extent.0, pass.extent.1, pass.samples),
        "the reply and the encoder are told the same extent"
    );
    Reply {
        refusal: 0,
        place: Some(NO_PLACE),
        earlier: Some(NO_PLACE),
        width: info.extent.width,
        height: info.extent.height,
        samples: info.context.sample_count,
        depth_read_only: info.is_depth_read_only,
        stencil_read_only: info.is_stencil_read_only,
        divergent: match &info.divergent_discarded_depth_stencil_aspect {
            None => aspects::NONE,
            Some((wgt::TextureAspect::DepthOnly, _)) => aspects::DEPTH,
            Some((wgt::TextureAspect::StencilOnly, _)) => aspects::STENCIL,
        },
        attachments: pass.attachments.clone(),
        clears: Vec::new(),
    }
}

/// `finish` clears the divergent aspect, keeps the other, and stores both.
fn check_divergent_clear(reply: &Reply, after: &[RecordedPass]) {
    let (depth, stencil) = match reply.divergent {
        aspects::DEPTH => (operations::CLEAR, operations::LOAD),
        aspects::STENCIL => (operations::LOAD, operations::CLEAR),
        _ => return assert!(after.is_empty(), "no clear without a divergent aspect"),
    };
    let expected = Attachment {
        view: reply.attachments[0].view,
        usage: sessions::reply::usages::DEPTH_STENCIL_WRITE,
        part: Part::DepthStencil {
            depth: depth | operations::STORE,
            stencil: stencil | operations::STORE,
            clear_depth: 0,
            clear_stencil: 0,
        },
    };
    assert_eq!(after.len(), 1, "one clear of the divergent aspect");
    assert_eq!(after[0].attachments, [expected]);
}

/// The pass row as the Rust's caller would hand it in.
fn request(resources: &Resources, pass: &sessions::Pass) -> ResolvedRenderPassDescriptor<'static> {
    let colours = pass.slots[..pass.colours as usize].iter();
    ResolvedRenderPassDescriptor {
        label: None,
        color_attachments: colours
            .map(|slot| color_request(resources, slot))
            .collect::<Vec<_>>()
            .into(),
        depth_stencil_attachment: depth_stencil_request(resources, pass),
        timestamp_writes: None,
        occlusion_query_set: None,
        multiview_mask: NonZeroU32::new(pass.mask),
    }
}

/// A view by its number.
fn view(resources: &Resources, number: u32) -> Option<Fallible<TextureView>> {
    (number != NONE).then(|| Fallible(resources.views[number as usize].clone()))
}

/// A colour slot as a request; an empty one is absent.
fn color_request(
    resources: &Resources,
    slot: &sessions::Slot,
) -> Option<RenderPassColorAttachment<Fallible<TextureView>>> {
    let [r, g, b, a] = slot.clear.map(f64::from_bits);
    Some(RenderPassColorAttachment {
        view: view(resources, slot.view)?,
        depth_slice: (slot.slice_given == 1).then_some(slot.slice),
        resolve_target: view(resources, slot.resolve),
        load_op: load(slot.load, Color { r, g, b, a }).expect("the row is lawful"),
        store_op: store(slot.store).expect("the row is lawful"),
    })
}

/// The depth-stencil part as a request, if there is one.
fn depth_stencil_request(
    resources: &Resources,
    pass: &sessions::Pass,
) -> Option<RenderPassDepthStencilAttachment<Fallible<TextureView>>> {
    Some(RenderPassDepthStencilAttachment {
        view: view(resources, pass.depth_stencil)?,
        depth: channel_request(&pass.depth, f32::from_bits),
        stencil: channel_request(&pass.stencil, |value| value),
    })
}

/// A channel as a request.
fn channel_request<V>(c: &sessions::Channel, value: fn(u32) -> V) -> PassChannel<Option<V>> {
    PassChannel {
        load_op: load(c.load, (c.clear_given == 1).then(|| value(c.clear))),
        store_op: store(c.store),
        read_only: c.read_only == 1,
    }
}

/// A load operation by its number; 3 is absent.
fn load<V>(number: u32, clear: V) -> Option<LoadOp<V>> {
    match number {
        sessions::layout::LOAD => Some(LoadOp::Load),
        sessions::layout::CLEAR => Some(LoadOp::Clear(clear)),
        sessions::layout::DONT_CARE => Some(LoadOp::DontCare(wgt::LoadOpDontCare)),
        _ => None,
    }
}

/// A store operation by its number; 2 is absent.
fn store(number: u32) -> Option<StoreOp> {
    match number {
        sessions::layout::STORE => Some(StoreOp::Store),
        sessions::layout::DISCARD => Some(StoreOp::Discard),
        _ => None,
    }
}

/// Document 01's number of an error, the place where the error tells one, and the earlier place.
fn number_and_places(
    error: &RenderPassErrorInner,
    pass: &sessions::Pass,
) -> (u32, Option<u32>, u32) {
    use RenderPassErrorInner as E;
    let located = |number: u32, at: &AttachmentErrorLocation| (number, Some(place(at)), NO_PLACE);
    match error {
        E::ColorAttachment(e) => (color_number(e), color_place(e, pass), NO_PLACE),
        E::InvalidAttachment(e) => (channel_number(e), Some(DEPTH_STENCIL_PLACE), NO_PLACE),
        E::MultiViewDimensionMismatch => (30, None, NO_PLACE),
        E::MultiViewMismatch => (31, None, NO_PLACE),
        E::MissingFeatures(MissingFeatures(wgt::Features::MULTIVIEW)) => (32, None, NO_PLACE),
        E::TooManyMultiviewViews => (33, None, NO_PLACE),
        E::TextureViewIsNotRenderable { location, .. } => located(34, location),
        E::AttachmentsDimensionMismatch {
            expected_location,
            actual_location,
            ..
        } => (35, Some(place(actual_location)), place(expected_location)),
        E::AttachmentSampleCountMismatch {
            expected_location,
            actual_location,
            ..
        } => (36, Some(place(actual_location)), place(expected_location)),
        E::InvalidResolveSampleCounts { location, .. } => located(42, location),
        E::MismatchedResolveTextureFormat { location, .. } => located(43, location),
        E::UnsupportedResolveTargetFormat { location, .. } => located(44, location),
        E::InvalidTransientResolveTarget { location } => located(45, location),
        E::MissingAttachments => (46, Some(NO_PLACE), NO_PLACE),
        E::MissingFeatures(_) => (47, Some(NO_PLACE), NO_PLACE),
        other => panic!("document 01 has no number for {other:?}"),
    }
}

/// The number of an error of a colour attachment.
fn color_number(error: &ColorAttachmentError) -> u32 {
    use ColorAttachmentError as E;
    match error {
        E::TooMany { .. } => 10,
        E::LoadOpDontCareUnderStrictWebgpuCompliance => 11,
        E::InvalidTransientAttachmentOp(_) => 12,
        E::InvalidFormat(_) => 37,
        E::DepthSliceLimit { .. } => 38,
        E::MissingDepthSlice => 39,
        E::UnneededDepthSlice => 40,
        E::SubresourceOverlap { .. } => 41,
        E::TooManyBytesPerSample { .. } => 51,
    }
}

/// The count's error concerns the whole pass, the sum's the slot that asked for it; the others do not
/// tell their slot.
fn color_place(error: &ColorAttachmentError, pass: &sessions::Pass) -> Option<u32> {
    use ColorAttachmentError as E;
    match error {
        E::TooMany { .. } => Some(NO_PLACE),
        E::TooManyBytesPerSample { .. } => Some(asking_slot(pass)),
        _ => None,
    }
}

/// The slot that asked last for the sum of colour bytes: each filled slot asks once, in order.
fn asking_slot(pass: &sessions::Pass) -> u32 {
    let mut filled = (0..pass.colours).filter(|slot| pass.slots[*slot as usize].view != NONE);
    let slot = filled.nth(validation::asked() - 1);
    slot.expect("only filled slots ask")
}

/// The number of an error of the depth-stencil attachment.
fn channel_number(error: &AttachmentError) -> u32 {
    use AttachmentError as E;
    match error {
        E::InvalidDepthStencilAttachmentFormat(_) => 13,
        E::InvalidTransientDepthAttachmentOps(_) => 14,
        E::ReadOnlyTransientDepthAttachment => 15,
        E::InvalidTransientStencilAttachmentOps(_) => 16,
        E::ReadOnlyTransientStencilAttachment => 17,
        E::ReadOnlyWithLoad => 18,
        E::ReadOnlyWithStore => 19,
        E::NoLoad => 20,
        E::NoClearValue => 21,
        E::ClearValueOutOfRange(_) => 22,
        E::LoadOpDontCareUnderStrictWebgpuCompliance => 23,
        E::NoStore => 24,
        E::DepthOpsWithoutAspect { .. } => 25,
        E::StencilOpsWithoutAspect { .. } => 26,
    }
}

/// Document 01's number of a place.
fn place(location: &AttachmentErrorLocation) -> u32 {
    match *location {
        AttachmentErrorLocation::Depth => DEPTH_STENCIL_PLACE,
        AttachmentErrorLocation::Color { index, resolve } => {
            index as u32 + if resolve { RESOLVE_PLACE } else { 0 }
        }
    }
}
